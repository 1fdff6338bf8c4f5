//! A plain engine: it reads the ring words that the measured engine reads, judges them by the same rules and paints frame memory.
//! Safe Rust, written for speed, without proofs. It draws each command whole, and of a picture through the ring all that a data
//! command feeds: a run has no budget.

use crate::blt::{self, Blt, Source};
use crate::calls::List;
use crate::host::Host;
use crate::vector::{self, Vector};

pub type Registers = [u32; 17];

/// The lookup table. Colour patterns stand in it.
pub type Table = [u32; 512];

// Numbered in the order of a BLT's words; the last is a vector's alone. SRC_OFFSET is VEC_ERR too, WID_HEIGHT VEC_LEN.
pub const RASTER_MODE: usize = 0;
pub const DST_OFFSET: usize = 1;
pub const SRC_OFFSET: usize = 2;
pub const STRIDE: usize = 3;
pub const WID_HEIGHT: usize = 4;
pub const SRC_COLOR_FG: usize = 5;
pub const SRC_COLOR_BG: usize = 6;
pub const PAT_COLOR_0: usize = 7;
pub const PAT_COLOR_1: usize = 8;
pub const PAT_DATA_0: usize = 9;
pub const PAT_DATA_1: usize = 10;
pub const CH3_OFFSET: usize = 11;
pub const CH3_MODE_STR: usize = 12;
pub const BASE_OFFSET: usize = 14;
pub const BLT_MODE: usize = 15;
pub const VECTOR_MODE: usize = 16;

/// The register of each word of a vector.
const VECTOR_WORDS: [usize; 13] = [0, 1, 2, 3, 4, 5, 7, 8, 9, 10, 12, 14, 16];

/// What a run tells: its units, the completion number, and the number that refused or stopped, or 0.
#[derive(Clone, Copy, PartialEq, Eq, Debug, Default)]
pub struct Told {
    pub units: u32,
    pub retired: u32,
    pub number: u32,
}

impl Told {
    #[inline]
    fn and(self, units: u32, retired: u32, number: u32) -> Told {
        Told { units: self.units.wrapping_add(units), retired: self.retired.wrapping_add(retired), number }
    }
}

/// The engine with its ring: what lies before `write` may be read.
struct Engine<'a> {
    ring: &'a [u32],
    write: usize,
    read: usize,
    registers: Registers,
    table: Table,
    /// GP_LUT_INDEX: where the next load goes on.
    index: u32,
    /// The BLT that wants data, if there is one.
    wants: Option<Host>,
    /// Room for the bytes of a data command.
    bytes: Vec<u8>,
}

/// What the word at the read pointer leads to.
enum Next {
    Waits,
    Refused(u32),
    /// This many units, drawing included.
    Done(u32),
    /// A BLT is loaded that takes its pixels from data commands.
    Wants,
}

/// Setup, publishing and a run over all that waits.
pub fn draw(ring: &[u32], frame: &mut [u8], write: usize) -> Told {
    let number = bad_lengths(ring.len(), frame.len(), write);
    if number != 0 {
        return Told { number, ..Told::default() };
    }
    let mut engine = Engine::new(ring);
    engine.write = write;
    engine.run(frame)
}

/// Setup and a list of calls, each of which publishes or runs over all that waits. Nothing of it is refused.
pub fn drive(ring: &[u32], frame: &mut [u8], list: &List) -> Told {
    let (mut engine, mut told) = (Engine::new(ring), Told::default());
    for (kind, position) in list.kinds.iter().zip(&list.positions) {
        if *kind == 0 {
            engine.write = *position;
        } else {
            let Told { units, retired, number } = engine.run(frame);
            told = told.and(units, retired, number);
        }
    }
    told
}

/// 1, 2 or 5, or 0.
fn bad_lengths(ring: usize, frame: usize, write: usize) -> u32 {
    if !(1024..=262_144).contains(&ring) {
        return 1;
    }
    if !(1..=67_108_864).contains(&frame) {
        return 2;
    }
    if write >= ring {
        return 5;
    }
    0
}

impl Engine<'_> {
    fn new(ring: &[u32]) -> Engine<'_> {
        Engine { ring, write: 0, read: 0, registers: [0; 17], table: [0; 512], index: 0, wants: None, bytes: Vec::new() }
    }

    /// Does all that waits, up to a refusal.
    #[inline(never)]
    fn run(&mut self, frame: &mut [u8]) -> Told {
        let mut told = Told::default();
        loop {
            if self.wants.is_some() {
                let Told { units, retired, number } = self.picture(frame);
                told = told.and(units, retired, number);
                if retired == 0 {
                    return told;
                }
            }
            loop {
                match self.next(frame) {
                    Next::Waits => return told,
                    Next::Refused(number) => return told.and(1, 0, number),
                    Next::Done(units) => told = told.and(units, 1, 0),
                    Next::Wants => {
                        told = told.and(1, 0, 0);
                        break;
                    }
                }
            }
        }
    }

    /// How many words wait.
    #[inline]
    fn waiting(&self) -> usize {
        if self.read <= self.write {
            self.write - self.read
        } else {
            self.write + self.ring.len() - self.read
        }
    }

    /// Does one command.
    #[inline(always)]
    fn next(&mut self, frame: &mut [u8]) -> Next {
        let waiting = self.waiting();
        if waiting == 0 {
            return Next::Waits;
        }
        let header = self.ring[self.read];
        if header & 0x4000_0000 != 0 {
            return self.table(header, waiting);
        }
        let vector = header & 0x2000_0000 != 0;
        let (length, zeros) = if vector { (14, 0x0FFF_E000) } else { (17, 0x0FFF_0000) };
        if header & zeros != 0 {
            return Next::Refused(21);
        }
        let (needed, after) = match self.span(header, length) {
            Ok(span) => span,
            Err(number) => return Next::Refused(number),
        };
        if waiting < needed {
            return Next::Waits;
        }
        let done = if vector { self.vector(header, frame) } else { self.blt(header, frame) };
        if let Next::Done(_) | Next::Wants = done {
            self.read = after;
        }
        done
    }

    /// How many words must wait for a command of this length, and the read pointer after it; or 22.
    #[inline]
    fn span(&self, header: u32, length: usize) -> Result<(usize, usize), u32> {
        let size = self.ring.len();
        let after = self.read + length;
        if header >> 31 != 0 {
            if self.read == 0 || after > size {
                return Err(22);
            }
            return Ok((size - self.read, 0));
        }
        Ok((length, if after >= size { after - size } else { after }))
    }

    /// Loads words into the table. Data that nobody wants come here too.
    #[inline(never)]
    fn table(&mut self, header: u32, waiting: usize) -> Next {
        let data = header & 0x2000_0000 != 0;
        if header & if data { 0x0FFF_FFFE } else { 0x0FFF_FFFC } != 0 {
            return Next::Refused(21);
        }
        if data {
            return Next::Refused(31);
        }
        if waiting < 3 {
            return Next::Waits;
        }
        let size = self.ring.len();
        let count = (self.ring[(self.read + 2) % size] ^ 0x6000_0000) as usize;
        if !(1..=512).contains(&count) {
            return Next::Refused(29);
        }
        let (needed, after) = match self.span(header, 3 + count) {
            Ok(span) => span,
            Err(number) => return Next::Refused(number),
        };
        if waiting < needed {
            return Next::Waits;
        }
        if header & 1 != 0 {
            self.index = self.ring[(self.read + 1) % size];
        }
        let (from, to) = ((self.read + 3) % size, self.index as usize % 512);
        match (self.ring.get(from..from + count), self.table.get_mut(to..to + count)) {
            (Some(words), Some(places)) => places.copy_from_slice(words),
            _ => (0..count).for_each(|i| self.table[(to + i) % 512] = self.ring[(from + i) % size]),
        }
        self.index = self.index & !511 | (to + count) as u32 & 511;
        self.read = after;
        Next::Done(1)
    }

    /// Feeds the BLT that wants data by the data commands that wait. It is retired once its picture is whole.
    #[inline(never)]
    fn picture(&mut self, frame: &mut [u8]) -> Told {
        let mut told = Told::default();
        while self.wants.is_some() {
            match self.data(frame) {
                Next::Done(units) => told = told.and(units, 0, 0),
                Next::Refused(number) => return told.and(1, 0, number),
                _ => return told,
            }
        }
        told.and(0, 1, 0)
    }

    /// Does one data command.
    #[inline]
    fn data(&mut self, frame: &mut [u8]) -> Next {
        let (waiting, size) = (self.waiting(), self.ring.len());
        if waiting == 0 {
            return Next::Waits;
        }
        let header = self.ring[self.read];
        let kind = (header >> 29 & 3) as usize;
        if header & [0x0FFF_0000, 0x0FFF_E000, 0x0FFF_FFFC, 0x0FFF_FFFE][kind] != 0 {
            return Next::Refused(21);
        }
        if kind != 3 {
            return Next::Refused(30);
        }
        if waiting < 2 {
            return Next::Waits;
        }
        let count = self.ring[(self.read + 1) % size] as usize;
        if !(1..=(size - 3).min(0xFFFF)).contains(&count) {
            return Next::Refused(32);
        }
        let (needed, after) = match self.span(header, 2 + count) {
            Ok(span) => span,
            Err(number) => return Next::Refused(number),
        };
        if waiting < needed {
            return Next::Waits;
        }
        let first = (self.read + 2) % size;
        let pixels = match self.ring.get(first..first + count) {
            Some(words) => self.feed(words, frame),
            None => self.feed(&[&self.ring[first..], &self.ring[..first + count - size]].concat(), frame),
        };
        self.read = after;
        Next::Done(1 + pixels)
    }

    /// Draws what these words feed, if they are wanted: how many pixels.
    #[inline]
    fn feed(&mut self, words: &[u32], frame: &mut [u8]) -> u32 {
        let Some(host) = &mut self.wants else { return 0 };
        let pixels = host.feed(frame, words, &self.registers, &self.table, &mut self.bytes);
        if host.is_whole() {
            self.wants = None;
        }
        pixels
    }

    #[inline(always)]
    fn blt(&mut self, header: u32, frame: &mut [u8]) -> Next {
        let mut loaded = self.registers;
        let first = self.read + 1;
        match self.ring.get(first..first + 16) {
            Some(words) => load_blt(header, words.try_into().unwrap(), &mut loaded),
            None => load_blt(header, &self.words_across(), &mut loaded),
        }
        let mut units = 1;
        if header & 0x8000 != 0 {
            match Blt::judged(&loaded, frame.len()) {
                Ok(b) => {
                    if let Source::Host(layout) = b.source {
                        self.wants = Some(Host::new(b, layout));
                        self.registers = loaded;
                        return Next::Wants;
                    }
                    blt::draw(frame, &b, &loaded, &self.table);
                    units += b.width as u32 * b.height as u32;
                }
                Err(number) => return Next::Refused(number),
            }
        }
        self.registers = loaded;
        Next::Done(units)
    }

    #[inline(always)]
    fn vector(&mut self, header: u32, frame: &mut [u8]) -> Next {
        let mut loaded = self.registers;
        let first = self.read + 1;
        match self.ring.get(first..first + 13) {
            Some(words) => load_vector(header, words.try_into().unwrap(), &mut loaded),
            None => load_vector(header, &self.words_across(), &mut loaded),
        }
        let mut units = 1;
        if header & 0x1000 != 0 {
            match Vector::judged(&loaded, frame.len()) {
                Ok(v) => {
                    vector::draw(frame, &v);
                    units += v.length;
                }
                Err(number) => return Next::Refused(number),
            }
        }
        self.registers = loaded;
        Next::Done(units)
    }

    /// The words after the header, which run across the ring's end.
    #[cold]
    fn words_across<const N: usize>(&self) -> [u32; N] {
        std::array::from_fn(|i| self.ring[(self.read + 1 + i) % self.ring.len()])
    }
}

/// Puts the enabled words of a BLT into its registers.
#[inline(never)]
fn load_blt(header: u32, words: &[u32; 16], registers: &mut Registers) {
    for i in 0..16 {
        let enabled = if header & 1 << i != 0 { !0 } else { 0 };
        registers[i] ^= (registers[i] ^ words[i]) & enabled;
    }
}

/// The same of a vector.
#[inline(never)]
fn load_vector(header: u32, words: &[u32; 13], registers: &mut Registers) {
    for i in 0..13 {
        let r = &mut registers[VECTOR_WORDS[i]];
        let enabled = if header & 1 << i != 0 { !0 } else { 0 };
        *r ^= (*r ^ words[i]) & enabled;
    }
}

/// Bytes a pixel, or the refusal 23: the format, and alpha.
#[inline]
pub fn depth_of(mode: u32) -> Result<usize, u32> {
    if mode & 0x00C0_0000 != 0 {
        return Err(23);
    }
    match mode >> 28 {
        0 => Ok(1),
        4..=6 => Ok(2),
        8 => Ok(4),
        _ => Err(23),
    }
}

/// Where the destination's offset lies in frame memory, its base added.
#[inline]
pub fn place_to(r: &Registers) -> i64 {
    based(r[BASE_OFFSET], r[DST_OFFSET])
}

/// The same of the source's.
#[inline]
pub fn place_from(r: &Registers) -> i64 {
    based(r[BASE_OFFSET] << 10, r[SRC_OFFSET])
}

/// A base in the high ten bits, which count 4 MiB each, and an offset of 24 bits: the sum may need 33.
#[inline]
fn based(base: u32, offset: u32) -> i64 {
    (base & 0xFFC0_0000) as i64 + (offset & 0xFF_FFFF) as i64
}
