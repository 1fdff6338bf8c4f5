//! W6: random cases for large memory, as `stream` writes them: up to 64 MiB and 262,144 ring words, small rectangles on bases, about the borders
//! of 4 MiB and of 16 MiB, at the end of memory and behind it. What must come up of them, and how it is known that it did.
//!
//! Long ways through the ring cost nothing: words of 0 are BLTs of 17 words that load nothing.

use crate::cases::{self, span, Rng, HOST, X_NEGATIVE, Y_NEGATIVE};
use crate::counts::reads_source;
use crate::host::mode_name;
use crate::model::{self, field, Answer, Data, Kind, Pattern, Registers, State, Word};
use crate::model::{
    BASE_OFFSET, BLT_MODE, CH3_MODE_STR, DST_OFFSET, PAT_COLOR_0, PAT_COLOR_1, PAT_DATA_0, PAT_DATA_1, RASTER_MODE, SRC_OFFSET, STRIDE,
    VECTOR_MODE, WID_HEIGHT,
};
use crate::programs::{Call, Watch};
use crate::short_ways::Each;
use crate::stream::Case;
use std::collections::BTreeMap;

const GRANULE: i64 = 4 << 20;
const REGION: i64 = 16 << 20;
const WIDE_PANEL: u32 = 48 << 20;
const LARGEST_FRAME: u32 = 64 << 20;
const LARGEST_RING: u32 = 262_144;
const LAST_OFFSET: i64 = 0xFF_FFFF;

// ---- What must come up ----------------------------------------------------------------------------------------------------------

const NEEDED: &[(&str, &[&str])] = &[
    (
        "lengths",
        &[
            "a ring of 16,385 words and more", "a ring of 65,539 words and more", "a ring of 262,144 words", "1 at 262,145 words",
            "a frame of 16 MiB and a byte and more", "a frame of 8 MiB", "a frame of 48 MiB", "a frame of 64 MiB", "2 at 64 MiB and a byte",
            "a frame of an odd length", "1 and 2: 1", "48 MiB with 262,144 words", "64 MiB with 262,144 words",
            "calls after a refused setup: 3", "5 at 262,144", "room 0 of 262,144 words",
        ],
    ),
    (
        "far into a ring of 262,144 words, frame memory of 48 MiB",
        &[
            "draws behind ring word 16,384", "draws behind ring word 65,536", "draws behind ring word 200,000",
            "over 300 commands drawn by one run", "over 65,535 words passed by one run", "across the end: BLT", "across the end: vector",
            "across the end: data", "W behind ring word 65,536: BLT", "W behind ring word 65,536: vector", "W behind ring word 65,536: data",
            "data of 65,535 words, all drawn", "data of 65,535 words, words left over", "data across ring word 65,536",
            "32 by bit 16 of the count word", "refused, restarted and drawn on",
        ],
    ),
    (
        "places",
        &[
            "fill across a 16 MiB border", "copy across a 16 MiB border", "unpacked across a 16 MiB border",
            "byte-packed across a 16 MiB border", "vector across a 16 MiB border", "host across a 16 MiB border",
            "source across a 16 MiB border: copy", "source across a 16 MiB border: unpacked", "source across a 16 MiB border: byte-packed",
            "fill over more than 4 MiB", "copy over more than 4 MiB", "unpacked over more than 4 MiB", "vector over more than 4 MiB",
            "fill over more than 16 MiB", "copy over more than 16 MiB", "drawn above 16 MiB", "drawn above 32 MiB", "drawn above 48 MiB",
            "offset of 12 MiB and more on a base", "source offset of 12 MiB and more on a base", "mono pattern on a base",
            "transparent pattern on a base", "colour pattern on a base", "channel 3's pattern on a base", "the same offsets on two bases",
        ],
    ),
    (
        "bases without effect, beside one that has",
        &[
            "source base, no source", "source base, host", "source base, vector", "channel 3's base, BLT", "channel 3's base, vector",
            "channel 3's base, its pattern", "bits 1:0, BLT", "bits 1:0, vector",
        ],
    ),
    (
        "which command loaded the base",
        &[
            "a BLT its own", "a vector its own", "a load before, for a BLT", "a load before, for a vector", "a vector, for a BLT",
            "a BLT, for a vector", "kept for a second command", "kept over a refusal",
        ],
    ),
];

/// At each depth and direction of X.
const EACH: &[Each] = &[
    Each {
        group: "destinations",
        of: &["fill:", "copy:", "vector:", "host:"],
        bits: &[8, 16, 32],
        x: &["X+", "X-"],
        names: &[
            "on a base", "on a base, Y-", "offset of 4 MiB and more on a base", "across a 4 MiB border", "beyond 16 MiB from its base",
            "to the last byte, on a base",
        ],
    },
    Each { group: "destinations", of: &["fill:", "copy:", "vector:", "host:"], bits: &[8, 16, 32], x: &["X-"], names: &["before its base"] },
    Each {
        group: "destinations of mono sources",
        of: &["unpacked:", "byte-packed:"],
        bits: &[8, 16, 32],
        x: &["X+"],
        names: &[
            "on a base", "offset of 4 MiB and more on a base", "across a 4 MiB border", "beyond 16 MiB from its base",
            "to the last byte, on a base",
        ],
    },
    Each {
        group: "sources",
        of: &["copy:"],
        bits: &[8, 16, 32],
        x: &["X+", "X-"],
        names: &[
            "from one base into another", "from a base into base 0", "from base 0 into a base", "source, Y-, on a base",
            "source offset of 4 MiB and more on a base", "source across a 4 MiB border", "source beyond 16 MiB from its base",
            "source to the last byte, on a base", "over itself with two bases",
        ],
    },
    Each { group: "sources", of: &["copy:"], bits: &[8, 16, 32], x: &["X-"], names: &["source before its base"] },
    Each {
        group: "mono sources",
        of: &["unpacked:", "byte-packed:"],
        bits: &[8, 16, 32],
        x: &["X+"],
        names: &[
            "from one base into another", "from a base into base 0", "from base 0 into a base", "source offset of 4 MiB and more on a base",
            "source across a 4 MiB border", "source beyond 16 MiB from its base", "source to the last byte, on a base",
            "over itself with two bases",
        ],
    },
];

/// What lies outside.
const OUTSIDE: [&str; 6] = ["27 BLT", "27 host", "27 vector", "28 colour", "28 unpacked", "28 byte-packed"];
/// And how far.
const FAR: [&str; 6] =
    ["one byte behind, on a base", "base 1023", "inside with base 0", "inside by 24 bits", "inside by 26 bits", "inside by 32 bits"];

fn refusals() -> Vec<String> {
    OUTSIDE.iter().flat_map(|what| FAR.iter().map(move |far| format!("{what}, {far}"))).collect()
}

// ---- Cases ----------------------------------------------------------------------------------------------------------------------

struct Writer<'a> {
    rng: &'a mut Rng,
    text: String,
    ring_len: u32,
    frame_len: i64,
    /// where the next command goes
    at: u32,
    /// once all commands so far are loaded
    registers: Registers,
    /// the calls are made between the commands
    list: bool,
    /// how many BLTs that load nothing may lie between two commands
    gap: i64,
}

/// The case of this number.
pub fn case(rng: &mut Rng, number: u64) -> String {
    let turn = number / 10;
    match number % 10 {
        0 => limits(rng, turn),
        1 => many(rng),
        2 => long_data(rng, turn),
        3 => lap(rng, turn),
        4 => list(rng),
        of_five => draw(rng, (5 * turn + of_five - 5) as usize),
    }
}

fn some_frame_length(rng: &mut Rng) -> u32 {
    let odd = rng.between(1, 16) * GRANULE + 2 * rng.between(-20, 20) - 1;
    rng.pick(&[8 << 20, WIDE_PANEL, WIDE_PANEL, LARGEST_FRAME, LARGEST_FRAME, odd as u32, odd as u32])
}

fn some_ring_length(rng: &mut Rng) -> u32 {
    let any = rng.between(4_096, i64::from(LARGEST_RING)) as u32;
    rng.pick(&[4_096, 16_385, 65_538, 65_539, LARGEST_RING, LARGEST_RING, any])
}

/// Lengths and positions just inside and outside.
fn limits(rng: &mut Rng, turn: u64) -> String {
    let (ring_len, frame_len) = match turn % 7 {
        0 => (LARGEST_RING + 1, WIDE_PANEL),
        1 => (4_096, LARGEST_FRAME + 1),
        2 => (LARGEST_RING + 1, LARGEST_FRAME + 1),
        3 => (LARGEST_RING, LARGEST_FRAME),
        6 => rng.pick(&[(LARGEST_RING + 1, WIDE_PANEL), (LARGEST_RING, LARGEST_FRAME + 1)]),
        _ => (LARGEST_RING, WIDE_PANEL),
    };
    let mut writer = Writer::new(rng, ring_len, frame_len, turn % 7 == 6);
    writer.commands(3);
    match turn % 7 {
        4 => writer.at = LARGEST_RING,
        5 => writer.at = LARGEST_RING - 1, // behind the commands all words are 0
        _ => {}
    }
    writer.end()
}

/// Hundreds of commands, all over the largest ring.
fn many(rng: &mut Rng) -> String {
    let mut writer = Writer::new(rng, LARGEST_RING, WIDE_PANEL, false);
    writer.gap = writer.rng.pick(&[60, 120, 200]);
    while writer.at < 240_000 {
        writer.commands(1);
    }
    let budget = if writer.rng.chance(1, 4) { writer.rng.below(40_000) as u32 } else { u32::MAX };
    writer.text + &format!("draw {} {budget}\n", writer.at)
}

/// A data command of 65,535 words.
fn long_data(rng: &mut Rng, turn: u64) -> String {
    let mut writer = Writer::new(rng, LARGEST_RING, WIDE_PANEL, false);
    writer.commands(2);
    writer.skip(9_000);
    match turn % 3 {
        0 => {
            // 255 by 257 pixels of 32 bits
            let mut r = writer.wish(Way::Host);
            r[RASTER_MODE] = 8 << 28 | writer.rng.pick(&[0xCC, 0x66, 0xCC, 0x5A]);
            r[BLT_MODE] = writer.rng.bits() & (X_NEGATIVE | Y_NEGATIVE) | HOST;
            r[SRC_OFFSET] &= !3;
            r[STRIDE] = 4 * 255 + writer.rng.below(40) as u32;
            r[WID_HEIGHT] = 255 << 16 | 257;
            r[CH3_MODE_STR] = 0;
            writer.place_destination(Kind::Blt, &mut r);
            writer.blt_and_data(&r, &[65_535]);
        }
        1 => {
            let r = writer.wish(Way::Host);
            writer.put(Kind::Blt, &r, true);
            writer.store(&[3 << 29 | 1, 65_535, 0x1234_5678, 0x9ABC_DEF0, 0x1122_4488]);
            writer.at += 65_535 - 3;
        }
        _ => {
            let r = writer.wish(Way::Host);
            writer.put(Kind::Blt, &r, true);
            writer.store(&[3 << 29 | 1, 1 << 16 | 1, 0x1234_5678]);
        }
    }
    writer.commands(2);
    writer.end()
}

/// A list of calls that goes to the end of the largest ring and on from its first word.
fn lap(rng: &mut Rng, turn: u64) -> String {
    let mut writer = Writer::new(rng, LARGEST_RING, WIDE_PANEL, true);
    writer.at = 17; // the words at the beginning are for the end of the last command
    writer.commands(4);
    writer.skip(14_000);
    let (kind, data, w) = match turn % 6 {
        0 => (Kind::Blt, false, true),
        1 => (Kind::Blt, false, false),
        2 => (Kind::Vector, false, true),
        3 => (Kind::Vector, false, false),
        4 => (Kind::Blt, true, true),
        _ => (Kind::Blt, true, false),
    };
    let way = match kind {
        _ if data => Way::Host,
        Kind::Blt => Way::Fill,
        Kind::Vector => Way::Vector,
    };
    let mut r = writer.wish(way);
    r[PAT_DATA_1] = writer.registers[PAT_DATA_1]; // so that one word at least need not be enabled
    let mut words = loop {
        let words = cases::emit(writer.rng, kind, &writer.registers, &r, true);
        if (1..words.len()).any(|i| words[0] >> (i - 1) & 1 == 0) {
            break words; // a word that is not enabled may be 0
        }
    };
    let mut before = Vec::new();
    if data {
        before = words;
        let total = 1 + model::word_of_pixel(&r, model::pixel_count(Kind::Blt, &r) - 1) as u32;
        words = cases::data_command(writer.rng, total + 2);
    }
    if w {
        words[0] |= 1 << 31;
        writer.store(&before);
        writer.store(&words);
        writer.text += &format!("r {}\np 0\nr {}\n", u32::MAX, u32::MAX);
        return writer.text + &format!("p 17\na\nr {}\n", u32::MAX);
    }
    // the word that lies at ring word 0 was the header of a BLT that loads nothing, and must be 0
    let shortest = if data { 2.max(words.len() as i64 - 16) } else { 1 };
    let free = |i: &usize| data || words[0] >> (i - 1) & 1 == 0 || words[*i] == 0;
    let places: Vec<usize> = (shortest as usize..words.len()).filter(free).collect();
    let cut = writer.rng.pick(&places);
    words[cut] = 0;
    let first = LARGEST_RING - cut as u32 - before.len() as u32;
    writer.go_to(first);
    writer.store(&before);
    let halves = words.split_at(cut);
    writer.store(halves.0);
    writer.at = 0;
    writer.store(halves.1);
    let position = writer.at;
    writer.text + &format!("r {}\np {position}\nr {}\na\n", u32::MAX, u32::MAX)
}

/// A list of calls: portions, budgets that end anywhere, refusals and restarts.
fn list(rng: &mut Rng) -> String {
    let panel = rng.chance(1, 2);
    let (ring_len, frame_len) =
        if panel { (LARGEST_RING, WIDE_PANEL) } else { (some_ring_length(rng), some_frame_length(rng)) };
    let mut writer = Writer::new(rng, ring_len, frame_len, true);
    for _ in 0..3 {
        writer.commands(4);
        let what = writer.rng.below(OUTSIDE.len() as u64) as usize;
        let far = writer.rng.below(FAR.len() as u64) as usize;
        writer.text += &format!("p {}\nr {}\n", writer.at, u32::MAX);
        if writer.outside(what, far) {
            writer.text += &format!("p {}\nr {}\ns\n", writer.at, u32::MAX);
            writer.again();
        }
    }
    writer.commands(3);
    writer.end()
}

/// One publish and one run, mostly up to a command that lies outside.
fn draw(rng: &mut Rng, turn: usize) -> String {
    let (ring_len, frame_len) = (some_ring_length(rng), some_frame_length(rng));
    let mut writer = Writer::new(rng, ring_len, frame_len, false);
    let commands = writer.rng.between(1, 12);
    writer.commands(commands);
    writer.outside(turn / FAR.len() % OUTSIDE.len(), turn % FAR.len());
    writer.end()
}

// ---- Commands -------------------------------------------------------------------------------------------------------------------

#[derive(Clone, Copy, PartialEq, Eq)]
enum Way {
    /// no source
    Fill,
    Copy,
    Unpacked,
    BytePacked,
    Host,
    Vector,
}

impl Writer<'_> {
    fn new(rng: &mut Rng, ring_len: u32, frame_len: u32, list: bool) -> Writer<'_> {
        let text = format!("ring {ring_len}\nframe {frame_len}\n");
        Writer { rng, text, ring_len, frame_len: i64::from(frame_len), at: 0, registers: model::ZEROS.registers, list, gap: 2_000 }
    }

    fn store(&mut self, words: &[u32]) {
        if words.is_empty() {
            return;
        }
        self.text += &format!("w {}", self.at);
        for word in words {
            self.text += &format!(" {word:x}");
        }
        self.text.push('\n');
        self.at += words.len() as u32;
    }

    /// All that was stored is published, and the engine runs.
    fn end(self) -> String {
        let (position, budget) = (self.at, u32::MAX);
        self.text + &if self.list { format!("p {position}\nr {budget}\n") } else { format!("draw {position} {budget}\n") }
    }

    /// Up to so many BLTs that load nothing, as far as there is room.
    fn skip(&mut self, most: i64) {
        let room = i64::from(self.ring_len - self.at) / 17 - 60;
        if room > 0 {
            self.at += 17 * self.rng.between(0, most.min(room)) as u32;
        }
    }

    /// BLTs and vectors that load nothing, up to this ring word.
    fn go_to(&mut self, place: u32) {
        while place > self.at && (place - self.at) % 17 != 0 {
            self.store(&[1 << 29]);
            self.at += 13;
        }
        self.at = place;
    }

    fn room(&self) -> bool {
        self.at + 400 < self.ring_len
    }

    /// A command's words; the registers follow.
    fn put(&mut self, kind: Kind, wished: &Registers, draw: bool) {
        let words = cases::emit(self.rng, kind, &self.registers, wished, draw);
        cases::load(&mut self.registers, kind, &words);
        self.store(&words);
    }

    fn blt_and_data(&mut self, r: &Registers, counts: &[u32]) {
        self.put(Kind::Blt, r, true);
        for count in counts {
            let words = cases::data_command(self.rng, *count);
            self.store(&words);
        }
    }

    /// Good commands, with calls between them where they are in a list.
    fn commands(&mut self, count: i64) {
        for _ in 0..count {
            if !self.room() {
                return;
            }
            if self.rng.chance(1, 8) {
                let words = cases::table_load(self.rng, &mut self.registers, Some(0x100), 64);
                self.store(&words);
            }
            if self.rng.chance(1, 5) {
                self.skip(self.gap);
            }
            let way = self.rng.pick(&[
                Way::Fill, Way::Fill, Way::Copy, Way::Copy, Way::Copy, Way::Copy, Way::Unpacked, Way::Unpacked, Way::BytePacked,
                Way::BytePacked, Way::Host, Way::Host, Way::Vector, Way::Vector,
            ]);
            let r = self.wish(way);
            if way == Way::Host {
                let counts = cases::split(self.rng, &r);
                self.blt_and_data(&r, &counts);
            } else {
                self.ground(&r, way);
                self.draw_wish(&r, if way == Way::Vector { Kind::Vector } else { Kind::Blt });
            }
            if self.list && self.rng.chance(2, 3) {
                let any = self.rng.below(60) as u32;
                let budget = self.rng.pick(&[0, 1, 2, any, any, u32::MAX]);
                self.text += &format!("p {}\nr {budget}\n", self.at);
            }
        }
    }

    /// The command as wished: at times part of it by a load of either kind, and at times again by the registers that it left.
    fn draw_wish(&mut self, r: &Registers, kind: Kind) {
        if self.rng.chance(1, 3) {
            let by = cases::some_kind(self.rng);
            let mut part = self.registers;
            for register in model::words_of(by) {
                if *register == BASE_OFFSET || self.rng.chance(1, 2) {
                    part[*register] = r[*register];
                }
            }
            self.put(by, &part, false);
        }
        self.put(kind, r, true);
        if self.rng.chance(1, 6) {
            // elsewhere on the same bases
            let mut other = *r;
            let base = (other[BASE_OFFSET], model::destination_base(r));
            other[RASTER_MODE] = other[RASTER_MODE] & !0xFF | self.rng.bits() & 0xFF;
            set_destination(&mut other, 0, 0);
            let (low, high) = span(kind, &other, false);
            let (first, last) = (-low - base.1, (self.frame_len - 1 - high - base.1).min(LAST_OFFSET));
            if first.max(0) <= last {
                let offset = self.rng.between(first.max(0), last);
                cases::set_offset(&mut other, DST_OFFSET, offset);
                other[BASE_OFFSET] = base.0;
                self.put(kind, &other, true);
            }
        }
        if kind == Kind::Blt && self.rng.chance(1, 12) {
            // the same offsets on another base
            let mut other = *r;
            let base = self.rng.below(self.frame_len as u64 / GRANULE as u64 + 1) as u32;
            other[BASE_OFFSET] = other[BASE_OFFSET] & 0x003F_FFFF | base << 22;
            if model::judge(kind, &other, self.frame_len as u32) == 0 {
                self.put(kind, &other, true);
            }
        }
    }

    /// A command by the registers as they are, if it is good.
    fn again(&mut self) {
        let r = self.registers;
        let good = |kind: &Kind| {
            (1..500).contains(&model::pixel_count(*kind, &r))
                && (*kind == Kind::Vector || !model::host_source(&r))
                && model::judge(*kind, &r, self.frame_len as u32) == 0
        };
        if let Some(kind) = [Kind::Blt, Kind::Vector].into_iter().find(good) {
            self.put(kind, &r, true);
        }
    }

    /// A good command, placed.
    fn wish(&mut self, way: Way) -> Registers {
        let limit = self.frame_len.min(3_000);
        loop {
            let mut r = match way {
                Way::Vector => {
                    let far = self.rng.chance(1, 6);
                    let (limit, most) = if far { (self.frame_len.min(20 << 20), 300) } else { (limit, 60) };
                    let mut r = cases::wish_vector(self.rng, &self.registers, limit, most);
                    if far {
                        r[STRIDE] = self.rng.between(60_000, 65_535) as u32;
                    }
                    r
                }
                Way::Host => cases::wish_picture(self.rng, &self.registers, limit, 60),
                _ => self.wish_blt(way, limit),
            };
            let kind = if way == Way::Vector { Kind::Vector } else { Kind::Blt };
            let selected = kind == Kind::Blt && model::source_selected(&r);
            let idle = self.rng.idle(0xFFF) | if selected { 0 } else { self.rng.idle(0x3F_F000) };
            if self.place_destination(kind, &mut r) && (!selected || self.place_source(&mut r)) {
                r[BASE_OFFSET] |= idle;
                if model::judge(kind, &r, self.frame_len as u32) == 0 {
                    return r;
                }
            }
        }
    }

    fn wish_blt(&mut self, way: Way, limit: i64) -> Registers {
        let (select, source_mode) = match way {
            Way::Copy => (1, 0),
            Way::Unpacked => (1, 1),
            Way::BytePacked => (1, 2),
            _ => (0, 0),
        };
        let mut r = loop {
            let r = cases::wish_blt(self.rng, &self.registers, limit, 40);
            let unused = select == 0 && !model::source_selected(&r);
            if unused || field(r[BLT_MODE], 1, 0) == select && field(r[BLT_MODE], 7, 6) == source_mode {
                break r;
            }
        };
        if self.rng.chance(1, 2) {
            r[RASTER_MODE] = r[RASTER_MODE] & !0xFF | self.rng.pick(&[0xCC, 0xF0, 0x5A, 0x66]);
        }
        if self.rng.chance(1, 10) {
            // rows far apart
            let height = self.rng.pick(&[66, 70, 100, 257, 280]);
            let (to, from) = (self.rng.between(60_000, 65_535) as u32, self.rng.between(60_000, 65_535) as u32);
            r[WID_HEIGHT] = (self.rng.between(1, 3) as u32) << 16 | height;
            r[STRIDE] = if self.rng.chance(1, 2) { to << 16 | to } else { from << 16 | to };
        }
        r
    }

    /// Where a command begins whose bytes lie `low` to `high` from there: at the first byte or the last, about a border, or anywhere.
    fn start(&mut self, low: i64, high: i64) -> Option<i64> {
        let (first, last) = (-low, self.frame_len - 1 - high);
        if first > last {
            return None;
        }
        let border = GRANULE * self.rng.between(1, (self.frame_len / GRANULE).max(1));
        let region = REGION * self.rng.between(1, (self.frame_len / REGION).max(1));
        let start = match self.rng.below(12) {
            0 => first,
            1 | 2 => last,
            3..=6 => border - self.rng.between(low, high),
            7 | 8 => region - self.rng.between(low, high),
            9 => border,
            _ => self.rng.between(first, last),
        };
        Some(start.clamp(first, last))
    }

    /// Base and offset of a place: the highest base below it, or the lowest that reaches it, or one between. None if there is none.
    fn base_and_offset(&mut self, start: i64) -> Option<(u32, i64)> {
        let least = ((start - LAST_OFFSET + GRANULE - 1).max(0)) / GRANULE;
        let most = (start / GRANULE).min(1_023);
        if start < 0 || least > most {
            return None;
        }
        let any = self.rng.between(least, most);
        let base = self.rng.pick(&[least, most, any]);
        Some((base as u32, start - GRANULE * base))
    }

    fn place_destination(&mut self, kind: Kind, r: &mut Registers) -> bool {
        set_destination(r, 0, 0);
        let (low, high) = span(kind, r, false);
        let placed = self.start(low, high).and_then(|start| self.base_and_offset(start));
        placed.is_some_and(|(base, offset)| set_destination(r, base, offset))
    }

    /// Anywhere, or about the destination.
    fn place_source(&mut self, r: &mut Registers) -> bool {
        set_source(r, 0, 0);
        let (low, high) = span(Kind::Blt, r, true);
        let Some(mut start) = self.start(low, high) else {
            return false;
        };
        if self.rng.chance(1, 4) {
            let near = model::destination_start(r) + self.rng.between(-40, 40);
            start = near.clamp(-low, self.frame_len - 1 - high);
        }
        self.base_and_offset(start).is_some_and(|(base, offset)| set_source(r, base, offset))
    }

    /// Something to read, where the command has its source: a mono pattern of two colours.
    fn ground(&mut self, r: &Registers, way: Way) {
        if !matches!(way, Way::Copy | Way::Unpacked | Way::BytePacked) {
            return;
        }
        let mut g = self.registers;
        let row_bytes = (model::source_xlsbs(r) + model::width(r) + 7) / 8;
        let format = if way == Way::Copy { r[RASTER_MODE] & 0xF000_0000 } else { 0 };
        g[RASTER_MODE] = format | 0x1F0;
        let width = if way == Way::Copy { model::width(r) } else { row_bytes };
        g[WID_HEIGHT] = (width as u32) << 16 | model::height(r) as u32;
        g[STRIDE] = if way == Way::BytePacked { row_bytes as u32 } else { field(r[STRIDE], 31, 16) };
        g[BLT_MODE] = r[BLT_MODE] & (X_NEGATIVE | Y_NEGATIVE);
        g[CH3_MODE_STR] = 0;
        g[DST_OFFSET] = self.rng.bits() & 0xFC00_0000;
        for register in [PAT_COLOR_0, PAT_COLOR_1, PAT_DATA_0, PAT_DATA_1] {
            g[register] = self.rng.bits();
        }
        g[BASE_OFFSET] = 0;
        set_destination(&mut g, field(r[BASE_OFFSET], 21, 12), model::source_offset(r));
        self.put(Kind::Blt, &g, true);
    }

    /// A command that lies outside; false if this one cannot. The registers stay.
    fn outside(&mut self, what: usize, far: usize) -> bool {
        if !self.room() {
            return false;
        }
        let (way, kind, source) = match what {
            0 => (self.rng.pick(&[Way::Fill, Way::Copy]), Kind::Blt, false),
            1 => (Way::Host, Kind::Blt, false),
            2 => (Way::Vector, Kind::Vector, false),
            3 => (Way::Copy, Kind::Blt, true),
            4 => (Way::Unpacked, Kind::Blt, true),
            _ => (Way::BytePacked, Kind::Blt, true),
        };
        for _ in 0..40 {
            let mut r = self.wish(way);
            let before = r;
            if source { set_source(&mut r, 0, 0) } else { set_destination(&mut r, 0, 0) };
            let (low, high) = span(kind, &r, source);
            let (first, last) = (-low, self.frame_len - 1 - high);
            let placed = match far {
                0 => self.base_and_offset(self.frame_len - high),
                1 => Some((1_023, self.rng.between(0, GRANULE - 1))),
                2 => {
                    let offset = self.rng.between(first, last.min(LAST_OFFSET).max(first));
                    let least = (self.frame_len - high - offset + GRANULE - 1) / GRANULE;
                    let any = self.rng.between(least, 1_023);
                    Some((self.rng.pick(&[least, any]) as u32, offset))
                }
                _ => {
                    let size = [1 << 24, 1 << 26, 1 << 32][far - 3];
                    let inside = self.rng.between(first, last.min(size - 1 - high).max(first));
                    let least = (self.frame_len - inside - low + size - 1) / size;
                    let any = self.rng.between(least, (1_023 * GRANULE / size).max(least));
                    let times = self.rng.pick(&[least, any]);
                    self.base_and_offset(inside + size * times)
                }
            };
            let Some((base, offset)) = placed.filter(|(_, offset)| (0..=LAST_OFFSET).contains(offset)) else {
                continue;
            };
            r[BASE_OFFSET] = before[BASE_OFFSET];
            if source { set_source(&mut r, base, offset) } else { set_destination(&mut r, base, offset) };
            if model::judge(kind, &r, self.frame_len as u32) == if source { 28 } else { 27 } {
                let words = cases::emit(self.rng, kind, &self.registers, &r, true);
                self.store(&words);
                return true;
            }
        }
        false
    }
}

fn set_destination(r: &mut Registers, base: u32, offset: i64) -> bool {
    r[BASE_OFFSET] = r[BASE_OFFSET] & 0x003F_FFFF | base << 22;
    cases::set_offset(r, DST_OFFSET, offset);
    true
}

fn set_source(r: &mut Registers, base: u32, offset: i64) -> bool {
    r[BASE_OFFSET] = r[BASE_OFFSET] & 0xFFC0_0FFF | base << 12;
    cases::set_offset(r, SRC_OFFSET, offset);
    true
}

// ---- Counting -------------------------------------------------------------------------------------------------------------------

pub struct Kinds {
    count: BTreeMap<String, u64>,
    /// who loaded BASE_OFFSET last: its kind, whether it drew, and whether a command has drawn by it since
    base: Option<(Kind, bool, bool)>,
    /// of this run: commands that draw, and words passed
    drawn: u64,
    passed: u64,
    /// a refusal was restarted in this case; one came since the base was loaded
    restarted: bool,
    refused_since: bool,
    /// the last BLT: its offsets and its base
    last: Option<(i64, i64)>,
    /// of this case
    frame_len: u32,
}

impl Kinds {
    pub fn new() -> Kinds {
        let mut count = BTreeMap::new();
        for name in NEEDED.iter().flat_map(|(_, names)| *names) {
            count.insert(name.to_string(), 0);
        }
        for (name, _) in lines().into_iter().flat_map(|(_, _, line)| line) {
            count.insert(name, 0);
        }
        for name in refusals() {
            count.insert(name, 0);
        }
        Kinds { count, base: None, drawn: 0, passed: 0, restarted: false, refused_since: false, last: None, frame_len: 0 }
    }

    pub fn begin_case(&mut self, case: &Case) {
        self.base = None;
        (self.drawn, self.passed) = (0, 0);
        self.restarted = false;
        self.refused_since = false;
        self.last = None;
        self.frame_len = case.frame_len;
    }

    fn hit_if(&mut self, condition: bool, name: &str) {
        if condition {
            match self.count.get_mut(name) {
                Some(count) => *count += 1,
                None => panic!("no such name in the list: {name}"),
            }
        }
    }

    /// Prints all counts; true if none is zero.
    pub fn report(&self) -> bool {
        for (group, names) in NEEDED {
            println!("large memory, {group}:");
            for name in *names {
                println!("  {name}: {}", self.count[*name]);
            }
        }
        println!("large memory, outside:");
        for name in refusals() {
            println!("  {name}: {}", self.count[&name]);
        }
        let mut last_group = "";
        for (group, kind, line) in lines() {
            if group != last_group {
                println!("large memory, {group}, at each depth:");
                last_group = group;
            }
            let counts: Vec<String> = line.iter().map(|(name, column)| format!("{column} {}", self.count[name])).collect();
            println!("  {kind}: {}", counts.join(", "));
        }
        let missing: Vec<_> = self.count.iter().filter(|(_, count)| **count == 0).map(|(name, _)| name).collect();
        for name in &missing {
            println!("never came up: {name}");
        }
        println!("large memory: {} kinds", self.count.len());
        missing.is_empty()
    }

    /// The wide panel with the largest ring.
    fn hit_panel(&mut self, state: &State, condition: bool, name: &str) {
        self.hit_if(condition && state.ring_len == LARGEST_RING && state.frame_len == WIDE_PANEL, name);
    }

    fn setup(&mut self, ring_len: u32, answer: &Answer, after: &State) {
        let frame_len = self.frame_len;
        match answer.word {
            Word::Refused(1) => {
                self.hit_if(ring_len == LARGEST_RING + 1 && frame_len <= LARGEST_FRAME, "1 at 262,145 words");
                self.hit_if(ring_len == LARGEST_RING + 1 && frame_len > LARGEST_FRAME, "1 and 2: 1");
            }
            Word::Refused(_) => self.hit_if(true, "2 at 64 MiB and a byte"),
            _ => {
                self.hit_if(ring_len >= 16_385, "a ring of 16,385 words and more");
                self.hit_if(ring_len >= 65_539, "a ring of 65,539 words and more");
                self.hit_if(ring_len == LARGEST_RING, "a ring of 262,144 words");
                self.hit_if(i64::from(frame_len) > REGION, "a frame of 16 MiB and a byte and more");
                self.hit_if(frame_len == 8 << 20, "a frame of 8 MiB");
                self.hit_if(frame_len == WIDE_PANEL, "a frame of 48 MiB");
                self.hit_if(frame_len == LARGEST_FRAME, "a frame of 64 MiB");
                self.hit_if(frame_len % 2 == 1, "a frame of an odd length");
                self.hit_panel(after, true, "48 MiB with 262,144 words");
                self.hit_if(frame_len == LARGEST_FRAME && ring_len == LARGEST_RING, "64 MiB with 262,144 words");
            }
        }
    }

    /// A command that draws and is loaded.
    fn loaded(&mut self, before: &State, ring: &[u32], kind: Kind, after: &State) {
        let header = model::ring_word(before, ring, 0);
        self.drawn += 1;
        self.hit_panel(after, before.read > 16_384, "draws behind ring word 16,384");
        self.hit_panel(after, before.read > 65_536, "draws behind ring word 65,536");
        self.hit_panel(after, before.read > 200_000, "draws behind ring word 200,000");
        self.hit_panel(after, self.restarted, "refused, restarted and drawn on");
        let name = if kind == Kind::Blt { "BLT" } else { "vector" };
        self.hit_panel(after, before.read + model::command_length(kind) > before.ring_len, &format!("across the end: {name}"));
        self.hit_panel(after, model::has_w(header) && before.read > 65_536, &format!("W behind ring word 65,536: {name}"));
        let r = &after.registers;
        if model::destination_base(r) > 0 {
            self.by_whom(kind);
        }
        self.destination(kind, r, i64::from(after.frame_len));
        if kind == Kind::Blt && model::source_selected(r) {
            self.source(r, i64::from(after.frame_len));
        }
        self.idle(kind, r);
    }

    /// Whose base a command draws on that has one.
    fn by_whom(&mut self, kind: Kind) {
        let Some((by, drew, used)) = self.base else {
            return;
        };
        let (name, other) = if kind == Kind::Blt { ("BLT", "vector") } else { ("vector", "BLT") };
        self.hit_if(drew && !used && by == kind, &format!("a {name} its own"));
        self.hit_if(!drew, &format!("a load before, for a {name}"));
        self.hit_if(by != kind, &format!("a {other}, for a {name}"));
        self.hit_if(used, "kept for a second command");
        self.hit_if(self.refused_since, "kept over a refusal");
        self.base = Some((by, drew, true));
    }

    fn destination(&mut self, kind: Kind, r: &Registers, frame_len: i64) {
        let (base, offset) = (model::destination_base(r), model::destination_offset(r));
        let (low, high) = span(kind, r, false);
        let way = way_of(kind, r);
        let mode = r[VECTOR_MODE];
        let (x_back, y_back, rows) = match kind {
            Kind::Blt => (model::x_negative(r), model::y_negative(r), model::height(r) > 1 && model::destination_stride(r) > 0),
            Kind::Vector => {
                let (x, y) = if field(mode, 0, 0) == 1 { (2, 1) } else { (1, 2) };
                (field(mode, x, x) == 0, field(mode, y, y) == 0, model::pixel_count(kind, r) > 1 && model::destination_stride(r) > 0)
            }
        };
        let depth = model::bytes_per_pixel(r).unwrap_or(1);
        let at = |name: &str| format!("{way}: {name}, {} bpp {}", 8 * depth, if x_back { "X-" } else { "X+" });
        let on_base = base > 0;
        let mono = way.ends_with("packed");
        self.hit_if(on_base, &at("on a base"));
        self.hit_if(on_base && y_back && rows && !mono, &at("on a base, Y-"));
        self.hit_if(on_base && offset >= GRANULE, &at("offset of 4 MiB and more on a base"));
        self.hit_if(low / GRANULE != high / GRANULE, &at("across a 4 MiB border"));
        self.hit_if(on_base && high - base >= REGION && low - base < REGION, &at("beyond 16 MiB from its base"));
        self.hit_if(on_base && high == frame_len - 1, &at("to the last byte, on a base"));
        self.hit_if(on_base && low < base && x_back, &at("before its base"));
        self.hit_if(low / REGION != high / REGION, &format!("{way} across a 16 MiB border"));
        self.hit_if(high - low > GRANULE && !["host", "byte-packed"].contains(&way), &format!("{way} over more than 4 MiB"));
        self.hit_if(high - low > REGION && ["fill", "copy"].contains(&way), &format!("{way} over more than 16 MiB"));
        self.hit_if(low >= REGION, "drawn above 16 MiB");
        self.hit_if(low >= 2 * REGION, "drawn above 32 MiB");
        self.hit_if(low >= 3 * REGION, "drawn above 48 MiB");
        self.hit_if(on_base && offset >= 12 << 20, "offset of 12 MiB and more on a base");
        if kind == Kind::Blt {
            let pattern = model::pattern(r);
            let transparent = field(r[RASTER_MODE], 10, 10) == 1;
            self.hit_if(on_base && pattern == Pattern::Mono && !transparent, "mono pattern on a base");
            self.hit_if(on_base && pattern == Pattern::Mono && transparent, "transparent pattern on a base");
            self.hit_if(on_base && pattern == Pattern::Colour && !model::channel_3(r), "colour pattern on a base");
            self.hit_if(on_base && model::channel_3(r), "channel 3's pattern on a base");
            let again = self.last.is_some_and(|(last_offset, last_base)| last_offset == offset && last_base != base);
            self.hit_if(again, "the same offsets on two bases");
            self.last = Some((offset, base));
        }
    }

    fn source(&mut self, r: &Registers, frame_len: i64) {
        let way = way_of(Kind::Blt, r);
        let (base, offset, to) = (model::source_base(r), model::source_offset(r), model::destination_base(r));
        let (low, high) = span(Kind::Blt, r, true);
        let (first, last) = span(Kind::Blt, r, false);
        let depth = model::bytes_per_pixel(r).unwrap_or(1);
        let back = model::x_negative(r);
        let at = |name: &str| format!("{way}: {name}, {} bpp {}", 8 * depth, if back { "X-" } else { "X+" });
        // where it can be seen
        if reads_source(r) {
            self.hit_if(base > 0 && to > 0 && base != to, &at("from one base into another"));
            self.hit_if(base > 0 && to == 0, &at("from a base into base 0"));
            self.hit_if(base == 0 && to > 0, &at("from base 0 into a base"));
            let rows = model::height(r) > 1 && model::source_stride(r) > 0;
            self.hit_if(base > 0 && rows && model::y_negative(r) && way == "copy", &at("source, Y-, on a base"));
            self.hit_if(base > 0 && offset >= GRANULE, &at("source offset of 4 MiB and more on a base"));
            self.hit_if(low / GRANULE != high / GRANULE, &at("source across a 4 MiB border"));
            self.hit_if(base > 0 && high - base >= REGION && low - base < REGION, &at("source beyond 16 MiB from its base"));
            self.hit_if(base > 0 && high == frame_len - 1, &at("source to the last byte, on a base"));
            self.hit_if(base > 0 && low < base && back, &at("source before its base"));
            self.hit_if(low <= last && first <= high && base != to, &at("over itself with two bases"));
            self.hit_if(low / REGION != high / REGION, &format!("source across a 16 MiB border: {way}"));
            self.hit_if(base > 0 && offset >= 12 << 20, "source offset of 12 MiB and more on a base");
        }
    }

    /// Bits of BASE_OFFSET that have no effect, where the destination has a base.
    fn idle(&mut self, kind: Kind, r: &Registers) {
        if model::destination_base(r) == 0 {
            return;
        }
        let blt = kind == Kind::Blt;
        let (source, third) = (model::source_base(r) > 0, field(r[BASE_OFFSET], 11, 2) != 0);
        let name = if blt { "BLT" } else { "vector" };
        self.hit_if(source && way_of(kind, r) == "fill", "source base, no source");
        self.hit_if(source && way_of(kind, r) == "host", "source base, host");
        self.hit_if(source && !blt, "source base, vector");
        self.hit_if(third, &format!("channel 3's base, {name}"));
        self.hit_if(third && blt && model::channel_3(r), "channel 3's base, its pattern");
        self.hit_if(field(r[BASE_OFFSET], 1, 0) != 0, &format!("bits 1:0, {name}"));
    }

    fn refused(&mut self, before: &State, ring: &[u32], number: u32) {
        self.refused_since = true;
        if number == 32 {
            let word = model::ring_word(before, ring, 1);
            self.hit_panel(before, word >> 16 == 1 && before.ring_len > 65_538, "32 by bit 16 of the count word");
        }
        let Some(kind) = model::kind_of(model::ring_word(before, ring, 0)).filter(|_| number == 27 || number == 28) else {
            return;
        };
        let r = model::registers_after(before, ring, kind);
        let source = number == 28;
        let (low, high) = span(kind, &r, source);
        let frame_len = i64::from(before.frame_len);
        let what = match kind {
            Kind::Vector => "27 vector".to_string(),
            Kind::Blt if source => format!("28 {}", mode_name(&r)),
            Kind::Blt if model::host_source(&r) => "27 host".to_string(),
            Kind::Blt => "27 BLT".to_string(),
        };
        let base = if source { model::source_base(&r) } else { model::destination_base(&r) };
        let inside = |first: i64| first >= 0 && first + high - low < frame_len;
        let mut hit = |condition: bool, far: &str| self.hit_if(condition, &format!("{what}, {far}"));
        hit(base > 0 && high == frame_len, FAR[0]);
        hit(base == 1_023 * GRANULE, FAR[1]);
        hit(base > 0 && inside(low - base), FAR[2]);
        for (bits, far) in [(24, FAR[3]), (26, FAR[4]), (32, FAR[5])] {
            let size = 1 << bits;
            hit(low >= size && low / size == high / size && inside(low % size), far);
        }
    }

    /// The last pixel of a picture.
    fn fed(&mut self, before: &State, after: &State) {
        let Some(Data::Fed { count, w, before: first }) = before.place.map(|place| place.data) else {
            return;
        };
        let passed = after.read != before.read;
        let end = before.read + 2 + count;
        self.hit_panel(before, passed && end > before.ring_len, "across the end: data");
        self.hit_panel(before, passed && w && before.read > 65_536, "W behind ring word 65,536: data");
        self.hit_panel(before, passed && before.read < 65_536 && end > 65_536 && count > 10_000, "data across ring word 65,536");
        if after.place.is_none() && count == 65_535 {
            let r = &before.registers;
            let wanted = model::word_of_pixel(r, model::pixel_count(Kind::Blt, r) - 1) + 1;
            let left = first + i64::from(count) > wanted;
            self.hit_panel(before, !left, "data of 65,535 words, all drawn");
            self.hit_panel(before, left, "data of 65,535 words, words left over");
        }
    }
}

fn way_of(kind: Kind, r: &Registers) -> &'static str {
    match mode_name(r) {
        _ if kind == Kind::Vector => "vector",
        _ if model::host_source(r) => "host",
        _ if !model::source_selected(r) => "fill",
        "colour" => "copy",
        mode => mode,
    }
}

/// Group, kind, and its names with depth and direction.
fn lines() -> Vec<(&'static str, String, Vec<(String, String)>)> {
    let mut lines = Vec::new();
    for each in EACH {
        for of in each.of {
            for name in each.names {
                lines.push((each.group, format!("{of} {name}"), each.line(of, name)));
            }
        }
    }
    lines
}

impl Watch for Kinds {
    fn unit(&mut self, before: &State, ring: &[u32], _: &[u8], after: &State) {
        self.passed += u64::from((after.read + after.ring_len - before.read) % after.ring_len);
        if after.stop != 0 {
            self.refused(before, ring, after.stop);
            return;
        }
        if before.place.is_some() {
            self.fed(before, after);
            return;
        }
        let header = model::ring_word(before, ring, 0);
        if let Some(kind) = model::kind_of(header) {
            let list = model::words_of(kind);
            let loads = list.iter().position(|register| *register == BASE_OFFSET).is_some_and(|i| header >> i & 1 == 1);
            if loads {
                self.base = Some((kind, after.place.is_some(), false));
                self.refused_since = false;
            }
            if after.place.is_some() {
                self.loaded(before, ring, kind, after);
            }
        }
    }

    fn call(&mut self, call: Call, before: &State, ring: &[u32], answer: &Answer, after: &State) {
        let ring_len = ring.len() as u32;
        match (call, answer.word) {
            (Call::Setup, _) => self.setup(ring_len, answer, after),
            (Call::Publish(_), Word::Refused(3)) => self.hit_if(before.ring_len == 0, "calls after a refused setup: 3"),
            (Call::Publish(position), Word::Refused(5)) => self.hit_if(position == LARGEST_RING && ring_len == LARGEST_RING, "5 at 262,144"),
            (Call::Publish(_), Word::Zero) => self.hit_if(answer.room == 0 && ring_len == LARGEST_RING, "room 0 of 262,144 words"),
            (Call::Restart, Word::Zero) => self.restarted = true,
            (Call::Run(_), _) => {
                self.hit_panel(after, self.drawn > 300, "over 300 commands drawn by one run");
                self.hit_panel(after, self.passed > 65_535, "over 65,535 words passed by one run");
                (self.drawn, self.passed) = (0, 0);
            }
            _ => {}
        }
    }

    fn store(&mut self, _: &State, _: &[u32], _: u32) {}
}
