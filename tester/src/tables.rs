//! W4: what must come up of table loads and colour patterns, and how it is known that it did: by following the table through a case.
//!
//! A tile shows where it has more than one colour in the rectangle and the raster code reads the pattern.

use crate::model::{self, field, Kind, Pattern, Registers, SourceMode, State, Table};
use crate::model::{CH3_MODE_STR, CH3_OFFSET, DST_OFFSET, LUT_INDEX, RASTER_MODE};
use crate::short_ways::{self, Each};
use std::collections::BTreeSet;

pub const NEEDED: &[(&str, &[&str])] = &[
    (
        "table loads",
        &[
            "table load", "table load, bit 0 set", "table load, bit 0 clear", "table load, bit 1 set", "table load, bit 1 clear",
            "table load, bits 1:0 clear", "table load, S set", "table load, a stale index skipped", "table load of 1 word",
            "table load of 2 words", "table load of 64 words", "table load of over 255 words", "table load of 512 words",
            "table load at 511", "table load of two words at 511", "table load that returns from 511 to 0",
            "table load that ends with word 511", "table load with bits above the index's 8:0", "table load goes on after another",
            "table load goes on at 0 after word 511", "table load goes on after a return to 0", "table load of the whole tile",
            "table load of a part of the tile", "table load beside the tile", "table load across the ring's end",
            "table load, index word behind the ring's end", "table load, count word behind the ring's end",
            "table load, data alone behind the ring's end", "W on a table load", "W on a table load ending at the ring's end",
            "W on a table load with words skipped", "table load waits, 1 word", "table load waits, 2 words", "table load waits, 3 words",
            "table load waits inside its data", "table load waits for its last word", "table load with W at ring word 0 waits, 1 word",
            "table load with W at ring word 0 waits, 2 words", "table load with W across the end waits, 2 words",
            "table load with W waits for the ring's end",
        ],
    ),
    (
        "refused table loads",
        &[
            "21 table load, the header alone", "21 table load, a bad count word too", "21 table load with W at ring word 0",
            "29 DTYPE", "29 reserved bit", "29 count 0", "29 count 513", "29 count above 513", "29 by more than one fault",
            "29 with three words waiting", "29 with more words waiting", "29 with W in a good place", "29 with W at ring word 0",
            "29 with W at ring word 0, three words waiting", "29 with W across the end", "29 with W across the end by its count word",
            "22 table load at ring word 0, three words waiting", "22 table load at ring word 0, whole",
            "22 table load across the end, three words waiting", "22 table load across the end, more words waiting",
            "22 table load across the end by one word", "22 table load, count word behind the end",
        ],
    ),
    (
        "colour patterns",
        &[
            "tile loaded at an index", "tile loaded by going on", "tile loaded after a return from 511 to 0",
            "tile loaded from behind the ring's end", "tile loaded with W", "tile loaded with bit 1 clear", "tile loaded by more than one load",
            "tile of zeros", "tile kept over a BLT", "tile kept over a vector", "tile kept over a load beside it",
            "tile kept over a refusal and a restart", "tile kept over a refused load into it, by 21",
            "tile kept over a refused load into it, by 22", "tile kept over a refused load into it, by 29", "colour pattern drawn again",
            "channel 3's pattern drawn again", "colour pattern format 0000", "colour pattern format 0100", "colour pattern format 0101",
            "colour pattern format 0110", "colour pattern format 1000", "channel 3's pattern format 0000", "channel 3's pattern format 0100",
            "channel 3's pattern format 0101", "channel 3's pattern format 0110", "channel 3's pattern format 1000",
            "channel 3's X and Y like BLT_MODE's", "channel 3's X unlike BLT_MODE's", "channel 3's Y unlike BLT_MODE's",
            "channel 3's reserved bits set", "channel 3's stride set", "channel 3's offset outside frame memory",
            "channel 3 off, its pattern mode set", "spent inside a colour pattern", "spent inside channel 3's pattern",
        ],
    ),
];

/// Both kinds of colour pattern at each depth and direction of X, where the tile shows.
pub const EACH: &[Each] = &[
    Each {
        group: "colour patterns",
        of: &["mode 10:", "channel 3's:"],
        bits: &[8, 16, 32],
        x: &["X+", "X-"],
        names: &[
            "Y+", "Y-", "no source", "a colour source", "PT set", "row 7, column 7", "rows over 8 pixels and 32 bytes",
            "more than 8 rows", "taken up inside a tile",
        ],
    },
    Each {
        group: "colour patterns and text",
        of: &["mode 10:", "channel 3's:"],
        bits: &[8, 16, 32],
        x: &["X+"],
        names: &["an unpacked source", "a byte-packed source", "a transparent mono source"],
    },
    Each {
        group: "channel 3's patterns",
        of: &["channel 3's:"],
        bits: &[8, 16, 32],
        x: &["X+", "X-"],
        names: &[
            "in place of a solid pattern", "in place of a mono pattern", "in place of a transparent mono pattern",
            "in place of a colour pattern", "low bits unlike DST_OFFSET's",
        ],
    },
];

/// How a table word came there.
const GIVEN: u32 = 1;
const WENT_ON: u32 = 2;
const RETURNED: u32 = 4;
const BEHIND_THE_END: u32 = 8;
const WITH_W: u32 = 16;
const BIT_1_CLEAR: u32 = 32;

const ORIGINS: [(u32, &str); 6] = [
    (GIVEN, "tile loaded at an index"),
    (WENT_ON, "tile loaded by going on"),
    (RETURNED, "tile loaded after a return from 511 to 0"),
    (BEHIND_THE_END, "tile loaded from behind the ring's end"),
    (WITH_W, "tile loaded with W"),
    (BIT_1_CLEAR, "tile loaded with bit 1 clear"),
];

const TILE: std::ops::Range<usize> = 0x100..0x140;

/// The table of one case, followed.
pub struct Follow {
    /// of each word: how it came there, and by which load
    origin: [(u32, u32); 512],
    loads: u32,
    /// the index went past 511 since it was loaded
    returned: bool,
    /// what the tile was kept over since it was changed: names that count when it is drawn
    since: BTreeSet<String>,
    /// a command was refused, and no restart came yet
    refused: bool,
}

impl Follow {
    pub fn new() -> Follow {
        Follow { origin: [(0, 0); 512], loads: 0, returned: false, since: BTreeSet::new(), refused: false }
    }

    /// A table load that is accepted: its kinds.
    pub fn load(&mut self, before: &State, ring: &[u32], after: &State) -> Vec<String> {
        let (header, index_word) = (model::ring_word(before, ring, 0), model::ring_word(before, ring, 1));
        let count = model::data_count(model::ring_word(before, ring, 2));
        let (given, bit_1) = (field(header, 0, 0) == 1, field(header, 1, 1) == 1);
        let mut kinds = Vec::new();
        let mut take = |holds: bool, name: &str| if holds { kinds.push(format!("table load{name}")) };
        take(true, "");
        take(given, ", bit 0 set");
        take(!given, ", bit 0 clear");
        take(bit_1, ", bit 1 set");
        take(!bit_1, ", bit 1 clear");
        take(!given && !bit_1, ", bits 1:0 clear");
        take(field(header, 28, 28) == 1, ", S set");
        take(!given && field(index_word ^ before.registers[LUT_INDEX], 8, 0) != 0, ", a stale index skipped");
        take(count == 1, " of 1 word");
        take(count == 2, " of 2 words");
        take(count == 64, " of 64 words");
        take(count > 255, " of over 255 words");
        take(count == 512, " of 512 words");

        // the index
        let index = if given { index_word } else { before.registers[LUT_INDEX] };
        let first = field(index, 8, 0);
        take(first == 511, " at 511");
        take(first == 511 && count == 2, " of two words at 511");
        take(first + count > 512, " that returns from 511 to 0");
        take(first + count == 512, " that ends with word 511");
        take(field(index, 31, 9) != 0, " with bits above the index's 8:0");
        take(!given && self.loads > 0, " goes on after another");
        take(!given && self.returned && first == 0, " goes on at 0 after word 511");
        take(!given && self.returned && first != 0, " goes on after a return to 0");
        let into = (0..count).filter(|i| TILE.contains(&(((first + i) % 512) as usize))).count();
        take(into == 64, " of the whole tile");
        take(0 < into && into < 64, " of a part of the tile");
        take(into == 0, " beside the tile");

        // the ring
        let end = before.read + 3 + count;
        let left = before.ring_len - before.read;
        take(end > before.ring_len, " across the ring's end");
        take(left == 1, ", index word behind the ring's end");
        take(left == 2, ", count word behind the ring's end");
        take(end > before.ring_len && left > 2, ", data alone behind the ring's end");
        if model::has_w(header) {
            kinds.push("W on a table load".to_string());
            let ending = if end == before.ring_len { "ending at the ring's end" } else { "with words skipped" };
            kinds.push(format!("W on a table load {ending}"));
        }

        self.loads += 1;
        if given {
            self.returned = false;
        }
        for i in 0..count {
            let mut how = if given { GIVEN } else { WENT_ON };
            how |= if self.returned { RETURNED } else { 0 };
            how |= if before.read + 3 + i >= before.ring_len { BEHIND_THE_END } else { 0 };
            how |= if model::has_w(header) { WITH_W } else { 0 };
            how |= if bit_1 { 0 } else { BIT_1_CLEAR };
            let at = ((first + i) % 512) as usize;
            self.origin[at] = (how, self.loads);
            self.returned |= at == 511;
        }
        if before.table[TILE] != after.table[TILE] {
            self.since.clear();
        } else if into == 0 {
            self.since.insert("tile kept over a load beside it".to_string());
        }
        kinds
    }

    /// A table load that is refused: its kinds.
    pub fn refuse(&mut self, before: &State, ring: &[u32], number: u32) -> Vec<String> {
        let waiting = model::waiting(before);
        let header = model::ring_word(before, ring, 0);
        let w = model::has_w(header);
        let at_zero = before.read == 0;
        let mut kinds = Vec::new();
        let mut take = |holds: bool, name: &str| if holds { kinds.push(name.to_string()) };
        if waiting < 3 {
            take(number == 21 && waiting == 1, "21 table load, the header alone");
            return kinds;
        }
        let count_word = model::ring_word(before, ring, 2);
        let count = model::data_count(count_word);
        let left = before.ring_len - before.read;
        let length = 3 + count;
        match number {
            21 => {
                take(!model::count_word_good(count_word), "21 table load, a bad count word too");
                take(w && at_zero, "21 table load with W at ring word 0");
            }
            29 => {
                let faults = faults_of_29(count_word);
                if let [fault] = faults[..] {
                    take(true, fault);
                }
                take(faults.len() > 1, "29 by more than one fault");
                take(waiting == 3, "29 with three words waiting");
                take(waiting > 3, "29 with more words waiting");
                take(w && !at_zero && length <= left, "29 with W in a good place");
                take(w && at_zero, "29 with W at ring word 0");
                take(w && at_zero && waiting == 3, "29 with W at ring word 0, three words waiting");
                take(w && !at_zero && length > left, "29 with W across the end");
                take(w && left < 3, "29 with W across the end by its count word");
            }
            _ => {
                take(at_zero && waiting == 3, "22 table load at ring word 0, three words waiting");
                take(at_zero && waiting >= length, "22 table load at ring word 0, whole");
                take(!at_zero && waiting == 3, "22 table load across the end, three words waiting");
                take(!at_zero && waiting > 3, "22 table load across the end, more words waiting");
                take(!at_zero && length == left + 1, "22 table load across the end by one word");
                take(left < 3, "22 table load, count word behind the end");
            }
        }
        // what it would do to the tile, if it were loaded as far as it goes
        let given = field(header, 0, 0) == 1;
        let first = field(if given { model::ring_word(before, ring, 1) } else { before.registers[LUT_INDEX] }, 8, 0);
        let changes = |i: u32| {
            let at = ((first + i) % 512) as usize;
            TILE.contains(&at) && before.table[at] != model::ring_word(before, ring, 3 + i)
        };
        if (0..count.min(512)).any(changes) {
            self.since.insert(format!("tile kept over a refused load into it, by {number}"));
        }
        kinds
    }

    /// Any refusal, and then a restart.
    pub fn refused(&mut self) {
        self.refused = true;
    }

    pub fn restarted(&mut self) {
        if self.refused {
            self.since.insert("tile kept over a refusal and a restart".to_string());
        }
        self.refused = false;
    }

    /// A command that is drawn: its kinds, those at each depth with their whole names.
    pub fn draw(&mut self, kind: Kind, r: &Registers, table: &Table, frame_len: i64) -> Vec<String> {
        let mut kinds = Vec::new();
        if kind == Kind::Vector || model::pattern(r) != Pattern::Colour {
            let off = kind == Kind::Blt && field(r[CH3_MODE_STR], 21, 21) == 1;
            kinds.extend(off.then(|| "channel 3 off, its pattern mode set".to_string()));
            self.since.insert(format!("tile kept over a {}", if kind == Kind::Blt { "BLT" } else { "vector" }));
            return kinds;
        }
        if short_ways::reads_pattern(r) && table[TILE].iter().all(|word| *word == 0) {
            kinds.push("tile of zeros".to_string());
        }
        if !tile_shows(r, table) {
            return kinds;
        }
        let words = tile_words(r);
        for (how, name) in ORIGINS {
            if words.iter().any(|word| self.origin[*word].0 & how != 0) {
                kinds.push(name.to_string());
            }
        }
        let loads: BTreeSet<u32> = words.iter().map(|word| self.origin[*word].1).filter(|load| *load > 0).collect();
        if loads.len() > 1 {
            kinds.push("tile loaded by more than one load".to_string());
        }
        kinds.extend(self.since.iter().cloned());
        let name = whole_name(r);
        self.since.insert(format!("{name} drawn again"));
        kinds.push(format!("{name} format {:04b}", field(r[RASTER_MODE], 31, 28)));
        if model::channel_3(r) {
            kinds.extend(idle_bits(r, frame_len).into_iter().map(str::to_string));
        }
        kinds.extend(at_each_depth(r).iter().map(|kind| short_ways::at_depth(r, &format!("{} {kind}", short_name(r)))));
        kinds
    }
}

/// The colour pattern shows in what is drawn.
pub fn tile_shows(r: &Registers, table: &Table) -> bool {
    short_ways::reads_pattern(r) && short_ways::many_colours(r, table)
}

fn whole_name(r: &Registers) -> &'static str {
    if model::channel_3(r) { "channel 3's pattern" } else { "colour pattern" }
}

pub fn with_article(r: &Registers) -> &'static str {
    if model::channel_3(r) { "channel 3's pattern" } else { "a colour pattern" }
}

pub fn short_name(r: &Registers) -> &'static str {
    if model::channel_3(r) { "channel 3's:" } else { "mode 10:" }
}

/// The table words that hold the rectangle's colours. Its first eight rows and columns have all of them.
fn tile_words(r: &Registers) -> BTreeSet<usize> {
    let depth = model::bytes_per_pixel(r).unwrap_or(1);
    let (width, height) = (model::width(r), model::height(r));
    let places = (0..height.min(8)).flat_map(|j| (0..width.min(8)).map(move |i| j * width + i));
    places
        .map(|k| {
            let pixel = model::blt_pixel(r, depth, k);
            TILE.start + ((8 * pixel.pattern_row + pixel.pattern_column) * depth / 4) as usize
        })
        .collect()
}

/// Bits of channel 3 that have no effect on its pattern.
fn idle_bits(r: &Registers, frame_len: i64) -> Vec<&'static str> {
    let mode = r[CH3_MODE_STR];
    let x = (field(mode, 29, 29) == 1) == model::x_negative(r);
    let y = (field(mode, 28, 28) == 1) == model::y_negative(r);
    let kinds = [
        (x && y, "channel 3's X and Y like BLT_MODE's"),
        (!x, "channel 3's X unlike BLT_MODE's"),
        (!y, "channel 3's Y unlike BLT_MODE's"),
        (field(mode, 17, 16) != 0, "channel 3's reserved bits set"),
        (field(mode, 15, 0) != 0, "channel 3's stride set"),
        (i64::from(field(r[CH3_OFFSET], 23, 0)) >= frame_len, "channel 3's offset outside frame memory"),
    ];
    kinds.into_iter().filter(|(holds, _)| *holds).map(|(_, name)| name).collect()
}

fn at_each_depth(r: &Registers) -> Vec<&'static str> {
    let raster = r[RASTER_MODE];
    let depth = model::bytes_per_pixel(r).unwrap_or(1);
    let (width, height) = (model::width(r), model::height(r));
    let transparent = field(raster, 10, 10) == 1;
    let selected = model::source_selected(r);
    let source = model::source_mode(r);
    let corner = (0..height.min(8)).any(|j| {
        (0..width.min(8)).any(|i| {
            let pixel = model::blt_pixel(r, depth, j * width + i);
            (pixel.pattern_row, pixel.pattern_column) == (7, 7)
        })
    });
    let third = model::channel_3(r);
    let mode = field(raster, 9, 8);
    let kinds = [
        (height > 1 && !model::y_negative(r), "Y+"),
        (height > 1 && model::y_negative(r), "Y-"),
        (!selected && !model::host_source(r), "no source"),
        (selected && source == SourceMode::Colour, "a colour source"),
        (transparent, "PT set"),
        (corner, "row 7, column 7"),
        (width > 8 && width * depth > 32, "rows over 8 pixels and 32 bytes"),
        (height > 8, "more than 8 rows"),
        (selected && source == SourceMode::Unpacked, "an unpacked source"),
        (selected && source == SourceMode::BytePacked, "a byte-packed source"),
        (selected && source != SourceMode::Colour && model::source_transparency(r), "a transparent mono source"),
        (third && mode == 0, "in place of a solid pattern"),
        (third && mode == 1 && !transparent, "in place of a mono pattern"),
        (third && mode == 1 && transparent, "in place of a transparent mono pattern"),
        (third && mode == 2, "in place of a colour pattern"),
        (third && field(r[CH3_OFFSET] ^ r[DST_OFFSET], 31, 26) != 0, "low bits unlike DST_OFFSET's"),
    ];
    kinds.into_iter().filter(|(holds, _)| *holds).map(|(_, name)| name).collect()
}

/// Each reason for 29.
fn faults_of_29(count_word: u32) -> Vec<&'static str> {
    let count = model::data_count(count_word);
    let faults = [
        (field(count_word, 31, 29) != 0b011, "29 DTYPE"),
        (field(count_word, 28, 16) != 0, "29 reserved bit"),
        (count == 0, "29 count 0"),
        (count == 513, "29 count 513"),
        (count > 513, "29 count above 513"),
    ];
    faults.into_iter().filter(|(holds, _)| *holds).map(|(_, name)| name).collect()
}

/// The length of the table load at the read pointer, if its count word waits and is good.
pub fn known_length(state: &State, ring: &[u32]) -> Option<u32> {
    let count_word = model::ring_word(state, ring, 2);
    (model::waiting(state) >= 3 && model::count_word_good(count_word)).then(|| model::table_load_length(count_word))
}

/// A table load for which a run answers waiting: its kinds.
pub fn waits(state: &State, ring: &[u32]) -> Vec<String> {
    let waiting = model::waiting(state);
    let w = model::has_w(model::ring_word(state, ring, 0));
    let mut kinds = Vec::new();
    let mut take = |holds: bool, name: &str| if holds { kinds.push(format!("table load {name}")) };
    take(waiting == 1, "waits, 1 word");
    take(waiting == 2, "waits, 2 words");
    take(waiting == 3, "waits, 3 words");
    if let Some(length) = known_length(state, ring) {
        take(3 < waiting && waiting < length, "waits inside its data");
        take(waiting + 1 == length, "waits for its last word");
        take(waiting >= length, "with W waits for the ring's end");
    } else {
        take(w && state.read == 0 && waiting == 1, "with W at ring word 0 waits, 1 word");
        take(w && state.read == 0 && waiting == 2, "with W at ring word 0 waits, 2 words");
        take(w && waiting == 2 && state.read + 2 == state.ring_len, "with W across the end waits, 2 words");
    }
    kinds
}
