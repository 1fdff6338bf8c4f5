//! What is measured: rings full of commands of one kind, depth and size, and the recorded buffers.

use crate::calls::List;
use std::path::Path;

/// Pixels in a row of the screen, and its rows. As many rows again lie below it, for sources and fonts.
const WIDE: usize = 1024;
const HIGH: usize = 1024;

pub const RING: usize = 16384;

/// The frame memory of commands that have bases: 48 MiB.
pub const LARGE: usize = 50_331_648;

/// A ring to draw, and how much there is in it.
pub struct Case {
    pub kind: String,
    pub bits: usize,
    pub size: String,
    pub ring: Vec<u32>,
    pub write: usize,
    pub frame: usize,
    /// Commands that draw, and pixels of all of them.
    pub commands: usize,
    pub pixels: usize,
    /// Table loads before them.
    pub loads: usize,
    /// Data commands, which no completion number counts.
    pub data: usize,
    /// The calls that draw it, where it needs more than one publish and one run.
    pub list: Option<List>,
    /// Whether it is not known before how much of it is drawn: a recording, or random commands.
    pub mixed: bool,
}

/// A small generator of random numbers, the same in every run.
pub struct Random(u64);

impl Random {
    pub fn new(seed: u64) -> Random {
        Random(seed.wrapping_mul(0x9E37_79B9_7F4A_7C15) | 1)
    }

    pub fn next(&mut self) -> u32 {
        self.0 ^= self.0 << 13;
        self.0 ^= self.0 >> 7;
        self.0 ^= self.0 << 17;
        (self.0 >> 16) as u32
    }

    /// A number below n.
    pub fn below(&mut self, n: usize) -> usize {
        self.next() as usize % n
    }
}

/// Frame memory to begin with: bits in runs, as those of letters are, about three to a run.
pub fn start(length: usize) -> Vec<u8> {
    let mut random = Random::new(1);
    let mut bit = 0;
    let mut byte = || {
        (0..8).fold(0, |byte: u8, _| {
            bit ^= (random.next() % 3 == 0) as u8;
            byte << 1 | bit
        })
    };
    (0..length).map(|_| byte()).collect()
}

/// Where a copy's source lies.
#[derive(Clone, Copy)]
enum Source {
    None,
    /// To the right on the same rows, overlapping; columns go right.
    Right,
    /// To the left, overlapping; columns go left.
    Left,
    /// Below the screen.
    Apart,
    /// On another screen, which has a base of its own.
    Other,
    /// To the left, overlapping, but columns go right: each pixel reads what was written.
    Smear,
    /// Bits below the screen, byte-packed or in rows of a sheet.
    Packed,
    Sheet,
    /// Through the ring: colours, or bits, byte-packed.
    Host,
    HostBits,
}

impl Source {
    /// The words of a picture that come through the ring.
    fn words(self, depth: usize, width: usize, height: usize) -> usize {
        match self {
            Source::Host => (width * depth).div_ceil(4) * height,
            Source::HostBits => (width.div_ceil(8) * height).div_ceil(4),
            _ => 0,
        }
    }
}

#[derive(Clone, Copy)]
enum Shape {
    Rectangle(Source),
    Line,
}

/// A kind of command: its name, its RASTER_MODE without the format, whether channel 3 brings the pattern, and its BASE_OFFSET.
struct Kind {
    name: &'static str,
    shape: Shape,
    raster: u32,
    channel: bool,
    base: u32,
}

const MONO: u32 = 0x100;
const COLOR: u32 = 0x200;
const PATTERN_HOLES: u32 = 0x400;
const SOURCE_HOLES: u32 = 0x800;

const fn kind(name: &'static str, source: Source, raster: u32) -> Kind {
    Kind { name, shape: Shape::Rectangle(source), raster, channel: false, base: 0 }
}

const fn by_channel(name: &'static str, source: Source, raster: u32) -> Kind {
    Kind { channel: true, ..kind(name, source, raster) }
}

/// With the bases of destination and source, in steps of 4 MiB.
const fn based(name: &'static str, source: Source, raster: u32, to: u32, from: u32) -> Kind {
    Kind { base: to << 22 | from << 12, ..kind(name, source, raster) }
}

const fn line(name: &'static str, raster: u32) -> Kind {
    Kind { shape: Shape::Line, ..kind(name, Source::None, raster) }
}

const KINDS: [Kind; 34] = [
    kind("fill F0", Source::None, 0xF0),
    based("fill F0 at 44 MiB", Source::None, 0xF0, 11, 0),
    kind("copy left CC", Source::Right, 0xCC),
    kind("copy right CC", Source::Left, 0xCC),
    kind("copy apart CC", Source::Apart, 0xCC),
    based("copy CC 4 to 44 MiB", Source::Other, 0xCC, 11, 1),
    kind("copy smear CC", Source::Smear, 0xCC),
    kind("xor 5A", Source::None, 0x5A),
    kind("xor 5A source", Source::Apart, 0x5A),
    kind("mono F0", Source::None, MONO | 0xF0),
    kind("mono F0 holes", Source::None, MONO | PATTERN_HOLES | 0xF0),
    kind("mono 5A", Source::None, MONO | 0x5A),
    kind("colour F0", Source::None, COLOR | 0xF0),
    kind("colour 5A", Source::None, COLOR | 0x5A),
    by_channel("colour F0 channel 3", Source::None, 0xF0),
    kind("text CC", Source::Packed, 0xCC),
    kind("text CC holes", Source::Packed, SOURCE_HOLES | 0xCC),
    kind("text CC sheet", Source::Sheet, 0xCC),
    kind("text F0 holes", Source::Packed, SOURCE_HOLES | 0xF0),
    kind("text 96", Source::Packed, 0x96),
    kind("text 96 holes", Source::Packed, SOURCE_HOLES | 0x96),
    kind("host CC", Source::Host, 0xCC),
    kind("host CC mono", Source::HostBits, 0xCC),
    kind("code A0", Source::None, 0xA0),
    kind("code 55", Source::None, 0x55),
    kind("code 88 source", Source::Apart, 0x88),
    kind("code EE source", Source::Apart, 0xEE),
    kind("code 66 source", Source::Apart, 0x66),
    kind("code 96 source", Source::Apart, 0x96),
    kind("code 66 left", Source::Right, 0x66),
    kind("code 66 right", Source::Left, 0x66),
    kind("code 66 smear", Source::Smear, 0x66),
    line("line F0", 0xF0),
    line("line 5A", 0x5A),
];

/// Width, height, and how many BLTs fill a ring; for lines the width is their length.
const SIZES: [(usize, usize, usize); 6] =
    [(1, 1, 960), (4, 4, 960), (16, 16, 960), (64, 64, 200), (256, 256, 24), (1024, 768, 3)];

/// RASTER_MODE's format at a depth in bytes.
fn format(depth: usize) -> u32 {
    match depth {
        1 => 0x0000_0000,
        2 => 0x6000_0000,
        _ => 0x8000_0000,
    }
}

/// Every case whose kind has the word in its name.
pub fn all(word: &str) -> Vec<Case> {
    let mut cases = Vec::new();
    if "calls alone".contains(word) {
        cases.push(calls());
    }
    for kind in KINDS.iter().filter(|k| k.name.contains(word)) {
        // with a base fewer depths and sizes
        let (depths, sizes) = if kind.base == 0 { (&[1, 2, 4][..], &SIZES[..]) } else { (&[2, 4][..], &SIZES[2..]) };
        for &depth in depths {
            for &(width, height, count) in sizes {
                cases.push(match kind.shape {
                    Shape::Rectangle(source) if source.words(depth, width, height) > RING / 2 => {
                        laps(kind, source, depth, width, height)
                    }
                    Shape::Rectangle(source) => rectangles(kind, source, depth, (width, height, count)),
                    Shape::Line => lines(kind, depth, width, count.max(64)),
                });
            }
        }
    }
    cases
}

/// Setup, publish and a run that find nothing to do.
fn calls() -> Case {
    Case {
        kind: "calls alone".to_string(),
        bits: 0,
        size: String::new(),
        write: 0,
        ring: filled(Vec::new()),
        frame: 64,
        commands: 1,
        pixels: 0,
        loads: 0,
        data: 0,
        list: None,
        mixed: true,
    }
}

fn rectangles(kind: &Kind, source: Source, depth: usize, (width, height, count): (usize, usize, usize)) -> Case {
    let mut random = Random::new((width + depth) as u64);
    let mut ring = Vec::with_capacity(RING);
    let loads = (kind.channel || kind.raster & COLOR != 0) as usize;
    if loads == 1 {
        ring.extend(tile(&mut random));
    }
    let words = source.words(depth, width, height);
    let each = if words == 0 { 17 } else { 17 + 2 + words };
    let count = count.min((RING - 1 - ring.len()) / each);
    let mut picture = words_of(&start(4 * words * count));
    for _ in 0..count {
        ring.extend(rectangle(kind, source, depth, width, height, &mut random));
        if words != 0 {
            ring.extend([0x6000_0001, words as u32]);
            ring.extend(picture.drain(..words));
        }
    }
    Case {
        kind: kind.name.to_string(),
        bits: 8 * depth,
        size: format!("{width} x {height}"),
        write: ring.len(),
        ring: filled(ring),
        frame: if kind.base == 0 { 2 * HIGH * WIDE * depth } else { LARGE },
        commands: count,
        pixels: count * width * height,
        loads,
        data: if words == 0 { 0 } else { count },
        list: None,
        mixed: false,
    }
}

fn filled(mut ring: Vec<u32>) -> Vec<u32> {
    ring.resize(RING, 0);
    ring
}

/// One picture that no ring holds. Two data commands are read lap after lap, each published when the other is done; the second
/// goes across the ring's end and over the BLT's words, up to the first.
fn laps(kind: &Kind, source: Source, depth: usize, width: usize, height: usize) -> Case {
    const HALF: usize = RING / 2;
    let mut ring = words_of(&start(4 * RING));
    ring[..17].copy_from_slice(&rectangle(kind, source, depth, width, height, &mut Random::new((width + depth) as u64)));
    for at in [17, 17 + HALF] {
        ring[at..at + 2].copy_from_slice(&[0x6000_0001, HALF as u32 - 2]);
    }
    let data = source.words(depth, width, height).div_ceil(HALF - 2);
    let ends = (0..data + 1).map(|i| 17 + i % 2 * HALF);
    let calls: Vec<_> = ends.flat_map(|end| [(0, end, 0), (1, 0, u32::MAX)]).collect();
    Case {
        kind: kind.name.to_string(),
        bits: 8 * depth,
        size: format!("{width} x {height}"),
        write: 0,
        ring,
        frame: 2 * HIGH * WIDE * depth,
        commands: 1,
        pixels: width * height,
        loads: 0,
        data,
        list: Some(List::new(&calls)),
        mixed: false,
    }
}

fn words_of(bytes: &[u8]) -> Vec<u32> {
    bytes.chunks_exact(4).map(|w| u32::from_le_bytes(w.try_into().unwrap())).collect()
}

/// A load of a colour pattern, as many words as it has at 32 bits.
fn tile(random: &mut Random) -> [u32; 67] {
    let mut words = [0; 67];
    words[..3].copy_from_slice(&[0x4000_0003, 0x100, 0x6000_0040]);
    words[3..].fill_with(|| random.next());
    words
}

/// One BLT with all its words enabled, at a place of its own.
fn rectangle(kind: &Kind, source: Source, depth: usize, width: usize, height: usize, random: &mut Random) -> [u32; 17] {
    let stride = (WIDE * depth) as u32;
    let [to, from, mode] = places(source, depth, width, height, random);
    let pattern = random.next() & 0xFC00_0000;
    let mut words = [0; 17];
    words[0] = 0x0000_FFFF;
    words[1] = format(depth) | kind.raster;
    words[2] = pattern | to;
    words[3] = from;
    words[4] = stride << 16 | stride;
    words[5] = (width << 16 | height) as u32;
    words[6..12].fill_with(|| random.next());
    if kind.channel {
        words[12] = random.next() & 0xFC00_0000;
        words[13] = 0x8020_0000 | format(depth) >> 4;
    }
    words[15] = kind.base;
    words[16] = mode;
    words
}

/// DST_OFFSET, SRC_OFFSET and BLT_MODE. A source that overlaps lies a quarter of the width away; of the fonts one in four begins
/// within a byte.
fn places(source: Source, depth: usize, width: usize, height: usize, random: &mut Random) -> [u32; 3] {
    let stride = WIDE * depth;
    let to = (1 + random.below(HIGH - height - 1)) * stride + random.below(WIDE - width + 1) * depth;
    let away = (width / 4).max(1) * depth;
    let last = width * depth - 1;
    let below = HIGH * stride;
    let other = random.below(HIGH - height) * stride;
    let row = below + other;
    let skip = if random.below(4) == 0 { random.below(8) } else { 0 };
    let packed = (skip + width + 7) / 8 * height;
    let (to, from, mode) = match source {
        Source::None => (to, 0, 0x000),
        Source::Right => (to, to + away, 0x001),
        Source::Left => (to + last, to + last - away, 0x201),
        Source::Apart => (to, row + random.below(WIDE - width + 1) * depth, 0x001),
        Source::Other => (to, other + random.below(WIDE - width + 1) * depth, 0x001),
        Source::Smear => (to, to - away, 0x001),
        Source::Packed => (to, skip << 26 | below + random.below(below - packed), 0x081),
        Source::Sheet => (to, skip << 26 | row + random.below(stride - width / 8), 0x041),
        Source::Host => (to, 0, 0x002),
        Source::HostBits => (to, 0, 0x082),
    };
    [to as u32, from as u32, mode]
}

// ---- lines

fn lines(kind: &Kind, depth: usize, length: usize, count: usize) -> Case {
    let mut random = Random::new((length + depth) as u64);
    let mut ring = Vec::with_capacity(RING);
    for i in 0..count {
        ring.extend(one_line(kind, depth, length, i, &mut random));
    }
    Case {
        kind: kind.name.to_string(),
        bits: 8 * depth,
        size: length.to_string(),
        write: ring.len(),
        ring: filled(ring),
        frame: 2 * HIGH * WIDE * depth,
        commands: count,
        pixels: count * length,
        loads: 0,
        data: 0,
        list: None,
        mixed: false,
    }
}

/// One vector with all its words enabled; the i-th goes in one of the eight directions.
fn one_line(kind: &Kind, depth: usize, length: usize, i: usize, random: &mut Random) -> [u32; 14] {
    let stride = WIDE * depth;
    let octant = i % 8;
    let major = length - 1;
    let minor = random.below(length);
    let (dx, dy) = if octant & 1 != 0 { (minor, major) } else { (major, minor) };
    let (major_on, minor_on) = (octant & 2 != 0, octant & 4 != 0);
    let (right, down) = if octant & 1 != 0 { (minor_on, major_on) } else { (major_on, minor_on) };
    let (x, y) = (random.below(WIDE - dx), random.below(HIGH - dy));
    let x = if right { x } else { x + dx };
    let y = if down { y } else { y + dy };
    let axial = 2 * minor as i32;
    let diagonal = 2 * (minor as i32 - major as i32);
    let error = 2 * minor as i32 - major as i32;
    [
        0x2000_1FFF,
        format(depth) | kind.raster,
        (y * stride + x * depth) as u32,
        (axial as u32) << 16 | diagonal as u32 & 0xFFFF,
        stride as u32,
        (length as u32) << 16 | error as u32 & 0xFFFF,
        random.next(),
        random.next(),
        0,
        0,
        0,
        0,
        0,
        octant as u32,
    ]
}

// ---- recordings

/// The recorded buffers of a folder whose names have the word.
pub fn recordings(folder: &Path, word: &str) -> Vec<Case> {
    let mut files: Vec<_> = std::fs::read_dir(folder).into_iter().flatten().flatten().map(|entry| entry.path()).collect();
    files.sort();
    let mut cases = Vec::new();
    for path in files.iter().filter(|path| path.extension().is_some_and(|e| e == "rec")) {
        let kind = format!("rec {}", path.file_stem().unwrap().to_string_lossy());
        let bytes = std::fs::read(path).unwrap();
        let words = words_of(&bytes);
        if kind.contains(word) && words.len() > 4 {
            cases.push(Case {
                kind,
                bits: 0,
                size: String::new(),
                write: words[2] as usize,
                frame: words[1] as usize,
                ring: words[4..].to_vec(),
                commands: 1,
                pixels: 0,
                loads: 0,
                data: 0,
                list: None,
                mixed: true,
            });
        }
    }
    cases
}
