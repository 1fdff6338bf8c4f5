//! Random commands, for the comparison alone: they are not timed.

use crate::workloads::{Case, Random};

/// Random numbers, and whether some commands are to be bad.
pub struct Mix {
    random: Random,
    faults: bool,
}

impl Mix {
    pub fn new(seed: u64, faults: bool) -> Mix {
        Mix { random: Random::new(seed), faults }
    }

    pub fn next(&mut self) -> u32 {
        self.random.next()
    }

    pub fn below(&mut self, n: usize) -> usize {
        self.random.below(n)
    }

    /// Whether something is to be bad here, once in n times.
    fn fault(&mut self, n: usize) -> bool {
        self.faults && self.below(n) == 0
    }
}

/// Rings of random commands of all kinds, most of them good, over a small frame memory.
pub fn all(word: &str) -> Vec<Case> {
    let count = if "random".contains(word) { 3000 } else { 0 };
    (0..count).map(mixed_ring).collect()
}

fn mixed_ring(seed: u64) -> Case {
    let mut random = Mix::new(1000 + seed, true);
    let words = 64 + random.below(1000);
    let mut ring: Vec<u32> = Vec::new();
    while ring.len() < words {
        match random.below(8) {
            0 | 1 => ring.extend(mixed_vector(&mut random)),
            2 => ring.extend(mixed_table(&mut random)),
            3 | 4 => ring.extend(mixed_host(&mut random)),
            _ => ring.extend(mixed_blt(&mut random)),
        }
    }
    ring.resize(1100 + random.below(1000), 0);
    Case {
        kind: format!("random {seed}"),
        bits: 0,
        size: String::new(),
        write: words - random.below(20),
        ring,
        frame: 20_000 + random.below(12_768),
        commands: 1,
        pixels: 0,
        loads: 0,
        data: 0,
        list: None,
        mixed: true,
    }
}

/// One of the numbers, the first being the likeliest.
pub fn one_of<const N: usize>(numbers: [u32; N], random: &mut Mix) -> u32 {
    let first = random.below(2) == 0;
    numbers[if first { 0 } else { random.below(N) }]
}

/// A number from 1 up to another, or rarely 0.
fn size(most: u32, random: &mut Mix) -> u32 {
    if random.fault(200) {
        0
    } else {
        1 + random.next() % most
    }
}

/// A header with all words enabled, or some but the mode; sometimes bad.
fn mixed_header(random: &mut Mix, kind: u32, words: u32) -> u32 {
    let all = (1 << words) - 1;
    let stall = (random.below(4) == 0) as u32;
    let some = if random.below(6) == 0 { random.next() & all | 1 << (words - 1) } else { all };
    let last = if random.below(20) == 0 { some & all >> 1 } else { some };
    let bad = if random.fault(200) { 1 << random.below(32) } else { 0 };
    kind << 29 | stall << 28 | last | bad
}

/// RASTER_MODE: a format, a code, and some of these bits.
fn mixed_raster(random: &mut Mix, bits: u32) -> u32 {
    let format = [0, 4, 5, 6, 8, 8][random.below(6)] << 28;
    let code = [0xCC, 0xF0, 0x5A, random.next() & 0xFF][random.below(4)];
    let faults = if random.fault(100) { 1 << (12 + random.below(20)) } else { 0 };
    format ^ faults | random.next() & bits | code
}

/// A load of up to 80 table words, most of them of the colour pattern; rarely with a bad count word.
pub fn mixed_table(random: &mut Mix) -> Vec<u32> {
    let enables = one_of([3, 1, 2, 0], random);
    let bad = if random.fault(200) { 1 << random.below(32) } else { 0 };
    let index = one_of([0x100, 0x140, 511, random.next()], random);
    let count = size(80, random);
    let faults = if random.fault(100) { 1 << random.below(32) } else { 0 };
    let mut words = vec![0x4000_0000 | enables | bad, index, 0x6000_0000 ^ faults | count];
    words.extend((0..count).map(|_| random.next()));
    words
}

/// RASTER_MODE's pattern mode: solid, mono, by colours, rarely undefined.
fn mixed_pattern(random: &mut Mix) -> u32 {
    if random.fault(200) {
        0x300
    } else {
        [0x000, 0x100, 0x200][random.below(3)]
    }
}

/// CH3_MODE_STR: off, or its pattern mode in the raster mode's format; sometimes bad.
fn mixed_channel(random: &mut Mix, raster: u32) -> u32 {
    if random.below(5) != 0 {
        return random.next() >> 1;
    }
    let faults = if random.fault(20) { 1 << (18 + random.below(14)) } else { 0 };
    (0x8020_0000 | raster >> 28 << 24 | random.next() & 0x3003_FFFF) ^ faults
}

/// BASE_OFFSET: 0 or bits without effect, which are these; rarely a base, which is too high for a small frame memory.
fn mixed_base(random: &mut Mix, bits: u32) -> u32 {
    let base = if random.fault(300) { 1 << (12 + random.below(20)) } else { 0 };
    base | one_of([0, random.next() & 0xFFF, random.next() & 3, random.next() & bits], random)
}

pub fn mixed_blt(random: &mut Mix) -> [u32; 17] {
    let (x, y) = (random.next() & 0x200, random.next() & 0x100);
    let mono = random.below(3) == 0;
    let source = if mono { one_of([0x81, 0x41, 0x01, 0x80], random) } else { one_of([0x01, 0x00, 0x01], random) };
    let back = if source & 0xC0 != 0 && !random.fault(50) { 0 } else { x | y };
    let to = 8000 + random.next() % 5000;
    let near = to + random.next() % 400 - 200;
    let from = one_of([near, near, near, 6000 + random.next() % 12_000], random);
    let stride = one_of([200, 0, random.next() % 300], random);
    let raster = mixed_raster(random, if source & 0xC0 != 0 { 0x2C00 } else { 0x0400 }) | mixed_pattern(random);
    let mut words = [
        mixed_header(random, 0, 16),
        raster,
        random.next() & 0xFC00_0000 | to,
        random.next() & 0xFC00_0000 | from,
        one_of([stride, random.next() % 300], random) << 16 | stride,
        size(60, random) << 16 | size(20, random) | random.next() & 0xF000_F000,
        random.next(),
        random.next(),
        random.next(),
        random.next(),
        random.next(),
        random.next(),
        random.next(),
        mixed_channel(random, raster),
        random.next(),
        mixed_base(random, 0xFFF),
        back | source,
    ];
    // a base and an offset whose sum does not fit in 32 bits
    if random.fault(300) {
        words[2] |= 0x0040_0000;
        words[15] |= 0xFFC0_0000;
    }
    if random.fault(300) {
        words[3] |= 0x0040_0000;
        words[15] |= 0x003F_F000;
    }
    words
}

/// A BLT with host source and the data commands that it wants.
fn mixed_host(random: &mut Mix) -> Vec<u32> {
    let mut words = host_blt(random).to_vec();
    words.extend(host_data(random, &words));
    words
}

/// A BLT with host source.
pub fn host_blt(random: &mut Mix) -> [u32; 17] {
    let mut words = mixed_blt(random);
    let mode = one_of([0x02, 0x42, 0x82], random);
    let bits = if mode == 0x02 { 0x0400 } else { 0x2C00 };
    words[0] |= 0x9015;
    words[1] = mixed_raster(random, bits) | mixed_pattern(random);
    words[5] = size(60, random) << 16 | size(8, random);
    words[13] = mixed_channel(random, words[1]);
    words[16] = mode | random.next() & 0x304;
    if mode == 0x02 && !random.fault(50) {
        words[3] &= !(depth(&words) as u32 - 1); // or a pixel may straddle two words
    }
    words
}

/// The data commands that a BLT wants; rarely too few of them, or one too many.
pub fn host_data(random: &mut Mix, blt: &[u32]) -> Vec<u32> {
    let mut words = Vec::new();
    let missing = if random.fault(60) { 1 + random.below(4) } else { 0 };
    let mut left = host_words(blt).saturating_sub(missing);
    while left > 0 {
        let most = one_of([left, left.min(9), 1].map(|n| n as u32), random);
        let count = (1 + random.below(most as usize)).min(65_535);
        left -= count;
        let spare = if left == 0 && count <= 65_530 { [0, 0, 0, 1, 5][random.below(5)] } else { 0 };
        words.extend(mixed_data(random, count + spare));
    }
    if random.fault(100) {
        words.extend(mixed_data(random, 3));
    }
    words
}

/// The depth of a BLT's words, if its format is one that is carried.
pub fn depth(blt: &[u32]) -> usize {
    [1, 2, 4, 4][(blt[1] >> 30) as usize]
}

/// How many words a picture through the ring has.
fn host_words(blt: &[u32]) -> usize {
    let [source, wide, high] = [blt[3], blt[5] >> 16, blt[5] & 0xFFFF].map(|w| w as usize);
    let (byte, skip) = (source & 3, source >> 26 & 7);
    match blt[16] & 0xC0 {
        0x00 => (byte + wide * depth(blt)).div_ceil(4) * high,
        0x40 => (8 * byte + skip + wide).div_ceil(32) * high,
        _ => (byte + (skip + wide).div_ceil(8) * high).div_ceil(4),
    }
}

/// A data command of so many words; rarely with a bad header or count word.
fn mixed_data(random: &mut Mix, count: usize) -> Vec<u32> {
    let [header, word] = [400, 400].map(|n| if random.fault(n) { 1 << random.below(32) } else { 0 });
    let mut words = vec![0x6000_0001 ^ header, count as u32 ^ word];
    words.extend((0..count).map(|_| random.next()));
    words
}

pub fn mixed_vector(random: &mut Mix) -> [u32; 14] {
    let term = |random: &mut Mix| random.next() % 200;
    let axial = term(random);
    let diagonal = term(random).wrapping_neg();
    let error = term(random).wrapping_sub(100);
    [
        mixed_header(random, 1, 13),
        mixed_raster(random, 0x0400),
        one_of([10_000, 2000], random) + random.next() % 5000,
        axial << 16 | diagonal & 0xFFFF,
        random.next() % 300,
        size(40, random) << 16 | error & 0xFFFF,
        random.next(),
        random.next(),
        random.next(),
        random.next(),
        random.next(),
        random.next() >> !random.fault(200) as u32,
        mixed_base(random, 0x003F_FFFF),
        random.next(),
    ]
}
