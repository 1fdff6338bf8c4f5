//! Random commands over a frame memory of 48 MiB, in rings as long as a ring can be, with bases: for the comparison alone.

use crate::calls::List;
use crate::mixed::{depth, host_blt, host_data, mixed_blt, mixed_table, mixed_vector, one_of, Mix};
use crate::workloads::{Case, LARGE};

const RING: usize = 262_144;

/// The bytes between one base and the next, and how many bases lie in frame memory.
const STEP: i64 = 1 << 22;
const BASES: usize = LARGE / STEP as usize;

/// The bases of a destination and of a source in BASE_OFFSET.
const TO: u32 = 0xFFC0_0000;
const FROM: u32 = 0x003F_F000;

/// Ten rings that are done to the end, one for each fault, and lengths at the limits.
pub fn all(word: &str) -> Vec<Case> {
    if !"large".contains(word) {
        return Vec::new();
    }
    let limits = [(RING, 64), (RING + 1, 64), (1024, 1 << 26), (1024, (1 << 26) + 1)];
    let limits = (16..).zip(limits).map(|(number, (ring, frame))| limit(number, ring, frame));
    (0..16).map(large_ring).chain(limits).collect()
}

/// A fill of the last eight bytes, by the highest base.
fn limit(number: u64, ring: usize, frame: usize) -> Case {
    let (base, offset) = ((frame as u32 - 8) & TO, (frame as u32 - 8) & !TO);
    let mut words = vec![0xFFFF, 0xF0, offset, 0, 0, 8 << 16 | 1, 0, 0, 0x5A, 0, 0, 0, 0, 0, 0, base, 0];
    words.resize(ring, 0);
    Case { ring: words, write: 17, frame, mixed: true, ..case(number) }
}

fn case(number: u64) -> Case {
    Case {
        kind: format!("large {number}"),
        bits: 0,
        size: String::new(),
        ring: Vec::new(),
        write: 0,
        frame: LARGE,
        commands: 1,
        pixels: 0,
        loads: 0,
        data: 0,
        list: None,
        mixed: false,
    }
}

/// Good commands up to the ring's end, and one bad one among them in the last six rings. The good rings are done in three runs.
fn large_ring(seed: u64) -> Case {
    let mut r = Ring::new(5000 + seed);
    let first = r.mix.below(RING / 3);
    r.fill(first);
    r.picture(1024, 100);
    r.fill(RING * 2 / 3);
    let list = if seed < 10 {
        r.fill(RING - 2000);
        Some(r.end())
    } else {
        r.bad(seed - 10);
        r.fill(RING - 2000);
        None
    };
    let write = r.words.len() % RING;
    r.words.resize(RING, 0);
    let Ring { words: ring, commands, pixels, loads, data, .. } = r;
    Case { ring, write, commands, pixels, loads, data, mixed: list.is_none(), list, ..case(seed) }
}

/// How many bytes before and behind a place are touched.
struct Reach {
    back: i64,
    ahead: i64,
}

impl Reach {
    /// Of rows of so many bytes; with X negative the place is a row's last byte.
    fn of_rows(bytes: i64, stride: u32, height: u32, mode: u32) -> Reach {
        let (along, down) = (bytes - 1, stride as i64 * (height as i64 - 1));
        let [left, up] = [mode & 0x200 != 0, mode & 0x100 != 0];
        Reach { back: along * left as i64 + down * up as i64, ahead: along * !left as i64 + down * !up as i64 }
    }

    /// Of a vector's steps, as if each one were diagonal.
    fn of_steps(words: &[u32; 14]) -> Reach {
        let (steps, depth, stride) = ((words[5] >> 16) as i64 - 1, depth(words) as i64, words[4] as i64);
        let (major, minor) = if words[13] & 1 != 0 { (stride, depth) } else { (depth, stride) };
        let [forth, across] = [words[13] & 2 != 0, words[13] & 4 != 0];
        Reach {
            back: steps * (major * !forth as i64 + minor * !across as i64),
            ahead: steps * (major * forth as i64 + minor * across as i64) + depth - 1,
        }
    }
}

/// A ring that is being written, and how much there is in it.
struct Ring {
    mix: Mix,
    words: Vec<u32>,
    /// BASE_OFFSET as the commands so far leave it.
    base: u32,
    commands: usize,
    pixels: usize,
    loads: usize,
    data: usize,
}

impl Ring {
    fn new(seed: u64) -> Ring {
        Ring { mix: Mix::new(seed, false), words: Vec::new(), base: 0, commands: 0, pixels: 0, loads: 0, data: 0 }
    }

    /// Random commands up to this word, the last one a bit beyond it.
    fn fill(&mut self, end: usize) {
        while self.words.len() < end {
            match self.mix.below(20) {
                0 => {
                    self.loads += 1;
                    self.words.extend(mixed_table(&mut self.mix));
                }
                1 => {
                    let mut blt = host_blt(&mut self.mix);
                    self.place_blt(&mut blt);
                    self.add_picture(&blt);
                }
                2..=6 => self.add_vector(),
                _ => {
                    let blt = self.blt();
                    self.add_blt(&blt);
                }
            }
        }
    }

    /// A BLT without host source, rarely a large one.
    fn blt(&mut self) -> [u32; 17] {
        let mut words = mixed_blt(&mut self.mix);
        if self.mix.below(30) == 0 {
            words[5] = 1 + self.mix.next() % 1024 << 16 | 1 + self.mix.next() % 60;
        }
        if words[16] & 0xC3 == 0x41 {
            words[16] |= self.mix.next() & 0x100;
        }
        self.place_blt(&mut words);
        words
    }

    /// A picture of 32 bits a pixel.
    fn picture(&mut self, width: u32, height: u32) {
        let blt = self.picture_blt(width, height);
        self.add_picture(&blt);
    }

    fn picture_blt(&mut self, width: u32, height: u32) -> [u32; 17] {
        let mut words = host_blt(&mut self.mix);
        words[1] = 0x8000_00CC;
        words[3] = 0;
        words[5] = width << 16 | height;
        words[13] = 0;
        words[16] = 0x002 | self.mix.next() & 0x100;
        self.place_blt(&mut words);
        words
    }

    fn add_picture(&mut self, blt: &[u32; 17]) {
        self.add_blt(blt);
        let data = host_data(&mut self.mix, blt);
        let mut at = 0;
        while at < data.len() {
            self.data += 1;
            at += 2 + data[at + 1] as usize;
        }
        self.words.extend(data);
    }

    fn add_blt(&mut self, words: &[u32; 17]) {
        self.commands += 1;
        if words[0] & 0x8000 != 0 {
            self.pixels += (words[5] >> 16 & 0xFFF) as usize * (words[5] & 0xFFF) as usize;
        }
        self.words.extend(words);
    }

    fn add_vector(&mut self) {
        let mut words = mixed_vector(&mut self.mix);
        if self.mix.below(20) == 0 {
            words[5] = words[5] & 0xFFFF | 1 + self.mix.next() % 1500 << 16;
        }
        words[0] |= 0x041F;
        words[4] = self.stride(words[5] >> 16);
        self.set_base(&mut words, 12);
        let reach = Reach::of_steps(&words);
        self.place(&mut words[2], self.base >> 22, None, reach);
        self.commands += 1;
        if words[0] & 0x1000 != 0 {
            self.pixels += (words[5] >> 16) as usize;
        }
        self.words.extend(words);
    }

    /// Gives a BLT strides, bases and offsets with which it lies in frame memory.
    fn place_blt(&mut self, words: &mut [u32; 17]) {
        let (width, height, mode) = (words[5] >> 16 & 0xFFF, words[5] & 0xFFF, words[16]);
        let bytes = width as i64 * depth(words) as i64;
        let stride = self.stride(height);
        let other = self.stride(height);
        let other = one_of([stride, other], &mut self.mix);
        words[0] |= 0x101F;
        words[4] = other << 16 | stride;
        self.set_base(words, 15);
        let to = self.place(&mut words[2], self.base >> 22, None, Reach::of_rows(bytes, stride, height, mode));
        if mode & 3 == 1 {
            let row = ((words[3] >> 26 & 7) + width).div_ceil(8);
            let reach = match mode & 0xC0 {
                0x00 => Reach::of_rows(bytes, other, height, mode),
                0x40 => Reach::of_rows(row as i64, other, height, mode),
                _ => Reach::of_rows(row as i64, row, height, mode),
            };
            let near = (self.mix.below(2) == 0).then_some(to);
            self.place(&mut words[3], self.base >> 12 & 0x3FF, near, reach);
        }
    }

    /// A stride with which so many rows lie within 2 MiB.
    fn stride(&mut self, rows: u32) -> u32 {
        let most = 65_535.min(STEP as u32 / 2 / rows);
        let [any, small] = [self.mix.next() % (most + 1), self.mix.next() % 300];
        one_of([most.min(4096), any, small, 0], &mut self.mix).min(most)
    }

    /// Sets BASE_OFFSET, which is this word, or keeps what it is.
    fn set_base(&mut self, words: &mut [u32], word: usize) {
        let enable = 1 << (word - 1);
        words[0] |= enable;
        if self.mix.below(4) == 0 {
            words[0] ^= enable;
            words[word] = self.mix.next();
            return;
        }
        let to = self.mix.below(BASES);
        let near = (to + self.mix.below(7)).saturating_sub(3).min(BASES - 1);
        let from = one_of([near, to, self.mix.below(BASES)].map(|base| base as u32), &mut self.mix);
        self.base = (to as u32) << 22 | from << 12 | self.mix.next() & 0xFFF;
        words[word] = self.base;
    }

    /// Gives an offset a place that it reaches from this base: close to another, to a multiple of 4 MiB, or anywhere.
    fn place(&mut self, offset: &mut u32, base: u32, near: Option<i64>, reach: Reach) -> i64 {
        let first = base as i64 * STEP;
        let border = first + self.mix.below(5) as i64 * STEP;
        let place = match (near, self.mix.below(2)) {
            (Some(place), _) => place + self.mix.below(400) as i64 - 200,
            (_, 0) => border + self.mix.below(4000) as i64 - 2000,
            _ => first + self.mix.below(4 * STEP as usize) as i64,
        };
        let (low, high) = (first.max(reach.back), (first + 4 * STEP).min(LARGE as i64 - reach.ahead) - 1);
        let place = place.clamp(low, high);
        *offset = *offset & 0xFC00_0000 | self.mix.next() & 0x0300_0000 | (place - first) as u32;
        place
    }

    /// A picture whose data command goes across the ring's end, over words that have been read; and the calls that do all.
    fn end(&mut self) -> List {
        let blt = self.picture_blt(1024, 3);
        let (middle, last) = (RING / 2 + self.mix.below(1000), self.words.len());
        self.add_blt(&blt);
        self.data += 1;
        self.words.extend([0x6000_0001, 1024 * 3]);
        let end = self.words.len() + 1024 * 3 - RING;
        while self.words.len() < RING {
            self.words.push(self.mix.next());
        }
        let calls: Vec<_> = [middle, last, end].iter().flat_map(|&to| [(0, to, 0), (1, 0, u32::MAX)]).collect();
        List::new(&calls)
    }

    /// A bad command: a base beyond frame memory, of the destination or the source; one byte beyond it; a sum that does not fit
    /// in 32 bits; or a count that does not fit in 16.
    fn bad(&mut self, fault: u64) {
        let mut words = mixed_blt(&mut self.mix);
        words[1] &= !0x2800;
        words[5] = 8 << 16 | 1;
        words[16] = 0x001;
        self.place_blt(&mut words);
        words[0] = 0xFFFF;
        let (last, beyond) = (BASES as u32 - 1, (BASES + self.mix.below(1024 - BASES)) as u32);
        let byte = STEP as u32 - 8 * depth(&words) as u32 + 1;
        let (base, to, from) = match fault {
            0 => (beyond << 22 | self.base & !TO, words[2], words[3]),
            1 => (beyond << 12 | self.base & !FROM, words[2], words[3]),
            2 => (last << 22 | self.base & !TO, byte, words[3]),
            3 => (last << 12 | self.base & !FROM, words[2], byte),
            4 => (TO | self.base & !TO, STEP as u32, words[3]),
            _ => {
                let blt = self.picture_blt(1024, 100);
                self.words.extend(blt);
                return self.words.extend([0x6000_0001, 65_536]);
            }
        };
        (words[15], words[2], words[3]) = (base, to, from);
        self.words.extend(words);
    }
}
