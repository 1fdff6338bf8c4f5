//! W5: what must come up of data commands and of BLTs with host source, and how it is known that it did: by following each such BLT from its
//! load to its last pixel.
//!
//! What is said of a BLT with host source counts when its last pixel is drawn, except where the name says that it is refused or that it waits.

use crate::model::{self, field, Data, Kind, Pattern, Place, Registers, SourceMode, State, Table};
use crate::model::{BLT_MODE, RASTER_MODE, SRC_OFFSET};
use crate::short_ways::{self, Each};
use crate::tables;
use std::collections::BTreeSet;

pub const NEEDED: &[(&str, &[&str])] = &[
    (
        "host sources",
        &[
            "host colour format 0000", "host colour format 0100", "host colour format 0101", "host colour format 0110",
            "host colour format 1000", "host unpacked format 0000", "host unpacked format 0100", "host unpacked format 0101",
            "host unpacked format 0110", "host unpacked format 1000", "host byte-packed format 0000", "host byte-packed format 0100",
            "host byte-packed format 0101", "host byte-packed format 0110", "host byte-packed format 1000", "host unpacked plain",
            "host unpacked inverted", "host unpacked transparent", "host unpacked inverted and transparent", "host byte-packed plain",
            "host byte-packed inverted", "host byte-packed transparent", "host byte-packed inverted and transparent",
            "host unpacked with set and clear bits", "host byte-packed with set and clear bits", "host colour 16 bpp, first byte 0",
            "host colour 16 bpp, first byte 2", "host colour 16 bpp, first byte 1, one pixel a row", "host colour 32 bpp, first byte 0",
            "host offset outside frame memory", "host BLT that 24 would refuse from frame memory",
            "host BLT that 28 would refuse from frame memory", "host byte-packed, two rows in one word", "host BLT loaded with W",
            "host BLT drawn twice in a row",
        ],
    ),
    (
        "data commands",
        &[
            "host picture in one data command", "host picture of over 100 words", "host picture in one word each",
            "host picture in a row each", "host picture cut inside a row", "host picture cut at a row's end", "left-over words",
            "left-over words, one", "left-over words, more than a row", "left-over words, then another picture", "data, bit 0 set",
            "data, bit 0 clear", "data, S set", "data of 1 word", "data of over 255 words", "data of ring size less 3",
            "data across the ring's end", "data, count word behind the ring's end", "data alone behind the ring's end",
            "data begins at ring word 0", "W on a data command", "W on the first of several", "W inside a picture", "W on the last one",
            "W on data ending at the ring's end", "W on data with words skipped", "W on data with left-over words", "header altered while fed",
            "count word altered while fed", "a data word altered while fed, drawn already", "a data word altered while fed, to be drawn",
            "a word skipped by W altered while fed",
        ],
    ),
    (
        "data that is waited for",
        &[
            "data wanted, nothing waits", "data wanted, 1 word waits", "data wanted, 2 words wait", "data wanted, waits inside its data",
            "data wanted, waits for its last word", "data wanted, W waits for the ring's end", "data wanted, W at ring word 0, 1 word waits",
            "data wanted, W at the ring's last word, 1 word waits", "data wanted again, nothing waits", "data wanted, budget 0",
            "data wanted, budget exactly used", "spent while data is wanted", "spent while data is wanted again",
            "spent right after accepting", "spent while fed, inside a row", "spent while fed, inside a word", "spent before the last pixel, fed",
            "publish while data is wanted", "publish while fed", "publish inside a data command", "room while data is wanted",
            "room while fed", "7 while data is wanted", "7 while fed",
        ],
    ),
    (
        "refused around data",
        &[
            "30 by a BLT", "30 by a BLT with host source", "30 by a BLT that only loads", "30 by a vector", "30 by a vector that only loads",
            "30 by a table load", "30 by a BLT, the header alone", "30 by a vector, the header alone", "30 by a table load, the header alone",
            "30 by a command that judging would refuse", "30 by a table load with a bad count word", "30 with W at a wrong place",
            "30 before any data", "30 after some pixels", "21 while data is wanted, a BLT", "21 while data is wanted, a vector",
            "21 while data is wanted, a table load", "21 while data is wanted, a data command", "21 data that nobody wants",
            "21 data, the header alone", "21 data with a bad count word", "31 after a picture", "31 after another command",
            "31 after a refusal", "31, the header alone", "31 with a bad count word", "31 with W at a wrong place", "32 count 0",
            "32 count of ring size less 2", "32 count above that", "32 reserved bit", "32 DTYPE", "32 by more than one fault",
            "32 with two words waiting", "32 with more words waiting", "32 with W at ring word 0", "32 with W across the end",
            "32 before any data", "32 after some pixels", "22 data at ring word 0, two words waiting", "22 data at ring word 0, whole",
            "22 data across the end, two words waiting", "22 data across the end, more words waiting", "22 data across the end by one word",
            "22 data, count word behind the end", "22 data before any pixel", "22 data after some pixels", "abandoned by 21, then drawn",
            "abandoned by 22, then drawn", "abandoned by 30, then drawn", "abandoned by 32, then drawn", "abandoned, then a plain BLT",
            "24 host 16 bpp, first byte 1, width 2", "24 host 16 bpp, first byte 1, wider", "24 host 16 bpp, first byte 3, width 1",
            "24 host 16 bpp, first byte 3, wider", "24 host 32 bpp, first byte 1", "24 host 32 bpp, first byte 2",
            "24 host 32 bpp, first byte 3", "24 host SI on colour", "24 host ST on colour", "24 host SM 11",
            "25 host, no pixel that could straddle", "27 host",
        ],
    ),
];

/// Each host source at each depth and direction of X.
pub const EACH: &[Each] = &[Each {
    group: "host sources",
    of: &["host colour:", "host unpacked:", "host byte-packed:"],
    bits: &[8, 16, 32],
    x: &["X+", "X-"],
    names: &[
        "Y+", "Y-", "a solid pattern", "a mono pattern", "a transparent mono pattern", "a colour pattern", "channel 3's pattern", "code CCh",
        "code F0h", "code 5Ah", "another code that reads the source", "several rows in several data commands",
    ],
}];

pub fn mode_name(r: &Registers) -> &'static str {
    match model::source_mode(r) {
        SourceMode::Colour => "colour",
        SourceMode::Unpacked => "unpacked",
        SourceMode::BytePacked => "byte-packed",
        SourceMode::Undefined => "undefined",
    }
}

/// How many data words the BLT takes.
fn words_wanted(r: &Registers) -> i64 {
    model::word_of_pixel(r, model::pixel_count(Kind::Blt, r) - 1) + 1
}

fn fed(place: &Option<Place>) -> Option<(u32, bool, i64)> {
    match place.map(|place| place.data) {
        Some(Data::Fed { count, w, before }) => Some((count, w, before)),
        _ => None,
    }
}

/// What came up of the BLTs with host source of one case.
pub struct Follow {
    /// of the BLT that wants data or is fed: names that count when it is drawn
    names: BTreeSet<String>,
    /// its data commands' counts
    counts: Vec<u32>,
    /// where its data commands were cut: inside a row, at a row's end
    cuts: (bool, bool),
    /// the last data command's number with W, counted from 1
    w: Option<usize>,
    /// the bits that were drawn: set, clear
    bits: (bool, bool),
    /// names that count when the next BLT with host source is drawn
    since: BTreeSet<String>,
    /// what was done last: a picture drawn, or anything else
    after_picture: bool,
    after_refusal: bool,
    abandoned: bool,
}

impl Follow {
    pub fn new() -> Follow {
        Follow {
            names: BTreeSet::new(),
            counts: Vec::new(),
            cuts: (false, false),
            w: None,
            bits: (false, false),
            since: BTreeSet::new(),
            after_picture: false,
            after_refusal: false,
            abandoned: false,
        }
    }

    /// A command that is loaded, host source or not.
    pub fn load(&mut self, before: &State, ring: &[u32], after: &State) -> Vec<String> {
        let mut kinds = Vec::new();
        if model::data_wanted(after) {
            let since = if self.after_picture { Some("host BLT drawn twice in a row") } else { None };
            self.names = since.map(str::to_string).into_iter().collect();
            self.counts.clear();
            self.cuts = (false, false);
            self.w = None;
            self.bits = (false, false);
            if model::has_w(model::ring_word(before, ring, 0)) {
                self.names.insert("host BLT loaded with W".to_string());
            }
        } else if self.abandoned && after.place.is_some_and(|place| place.kind == Kind::Blt) {
            kinds.push("abandoned, then a plain BLT".to_string());
        }
        self.abandoned = false;
        self.after_picture = false;
        self.after_refusal = false;
        kinds
    }

    /// A data command that is accepted.
    pub fn accept(&mut self, before: &State, ring: &[u32]) {
        let (header, count) = (model::ring_word(before, ring, 0), model::data_count(model::ring_word(before, ring, 1)));
        let drawn = before.place.map_or(0, |place| place.drawn);
        let (first, end) = (before.read, before.read + 2 + count);
        let w = model::has_w(header);
        let names = &mut self.names;
        let mut take = |holds: bool, name: &str| holds.then(|| names.insert(name.to_string()));
        take(field(header, 0, 0) == 1, "data, bit 0 set");
        take(field(header, 0, 0) == 0, "data, bit 0 clear");
        take(field(header, 28, 28) == 1, "data, S set");
        take(count == 1, "data of 1 word");
        take(count > 255, "data of over 255 words");
        take(count == before.ring_len - 3, "data of ring size less 3");
        take(end > before.ring_len, "data across the ring's end");
        take(first + 1 == before.ring_len, "data, count word behind the ring's end");
        take(end > before.ring_len && first + 2 <= before.ring_len, "data alone behind the ring's end");
        take(first == 0, "data begins at ring word 0");
        take(w, "W on a data command");
        take(w && end == before.ring_len, "W on data ending at the ring's end");
        take(w && end < before.ring_len, "W on data with words skipped");
        self.counts.push(count);
        if w {
            self.w = Some(self.counts.len());
        }
        let column = drawn % model::width(&before.registers);
        self.cuts.0 |= drawn > 0 && column != 0;
        self.cuts.1 |= drawn > 0 && column == 0;
    }

    /// A pixel of a BLT that is fed; its kinds, if it is the last, those at each depth with their whole names.
    pub fn pixel(&mut self, before: &State, ring: &[u32], after: &State, frame_len: i64) -> Vec<String> {
        let (Some(place), Some((count, w, words_before))) = (before.place, fed(&before.place)) else {
            return Vec::new();
        };
        let r = &before.registers;
        let depth = model::bytes_per_pixel(r).unwrap_or(1);
        let pixel = model::host_pixel(r, depth, place.drawn);
        let bit = model::host_bit(model::ring_word(before, ring, 2 + (pixel.word - words_before) as u32), &pixel);
        self.bits.0 |= bit;
        self.bits.1 |= !bit;
        if after.place.is_some() {
            return Vec::new();
        }
        let left = words_before + i64::from(count) - words_wanted(r);
        let kinds = self.drawn(r, &before.table, frame_len, left, w);
        self.after_picture = true;
        self.after_refusal = false;
        self.since.clear();
        if left > 0 {
            self.since.insert("left-over words, then another picture".to_string());
        }
        kinds
    }

    fn drawn(&mut self, r: &Registers, table: &Table, frame_len: i64, left: i64, w: bool) -> Vec<String> {
        let mode = mode_name(r);
        let mono = mode != "colour";
        let depth = model::bytes_per_pixel(r).unwrap_or(1);
        let (wanted, height, width) = (words_wanted(r), model::height(r), model::width(r));
        let row = wanted / height;
        let commands = self.counts.len();
        let mut kinds: Vec<String> = self.names.iter().chain(&self.since).cloned().collect();
        let mut take = |holds: bool, name: &str| if holds { kinds.push(name.to_string()) };
        take(true, &format!("host {mode} format {:04b}", field(r[RASTER_MODE], 31, 28)));
        let bits = match (model::source_inversion(r), model::source_transparency(r)) {
            (false, false) => "plain",
            (true, false) => "inverted",
            (false, true) => "transparent",
            (true, true) => "inverted and transparent",
        };
        take(mono, &format!("host {mode} {bits}"));
        take(mono && self.bits == (true, true), &format!("host {mode} with set and clear bits"));
        let first = model::first_byte(r);
        take(!mono && depth == 2 && first != 1, &format!("host colour 16 bpp, first byte {first}"));
        take(!mono && depth == 2 && first == 1, "host colour 16 bpp, first byte 1, one pixel a row");
        take(!mono && depth == 4, "host colour 32 bpp, first byte 0");
        take(model::source_offset(r) >= frame_len, "host offset outside frame memory");
        let from_frame = model::judge(Kind::Blt, &from_frame_memory(r), frame_len as u32);
        take([24, 28].contains(&from_frame), &format!("host BLT that {from_frame} would refuse from frame memory"));
        let shared = |j: i64| model::word_of_pixel(r, j * width - 1) == model::word_of_pixel(r, j * width);
        take(mode == "byte-packed" && (1..height).any(shared), "host byte-packed, two rows in one word");

        take(commands == 1 && wanted > 1, "host picture in one data command");
        take(wanted > 100, "host picture of over 100 words");
        take(commands > 2 && self.counts.iter().all(|count| *count == 1), "host picture in one word each");
        let by_rows = row > 1 && height > 1 && row * height == wanted && self.counts.iter().all(|count| i64::from(*count) == row);
        take(by_rows, "host picture in a row each");
        take(self.cuts.0, "host picture cut inside a row");
        take(self.cuts.1, "host picture cut at a row's end");
        take(left > 0, "left-over words");
        take(left == 1, "left-over words, one");
        take(left > row, "left-over words, more than a row");
        take(left > 0 && w, "W on data with left-over words");
        take(w, "W on the last one");
        take(self.w == Some(1) && commands > 1, "W on the first of several");
        take(self.w.is_some_and(|w| w > 1 && w < commands), "W inside a picture");

        let name = format!("host {mode}:");
        let code = field(r[RASTER_MODE], 7, 0);
        let reads = crate::counts::reads_source(r);
        let transparent = field(r[RASTER_MODE], 10, 10) == 1;
        let rows = height > 1 && model::destination_stride(r) > 0;
        let shows = tables::tile_shows(r, table);
        let pattern = model::pattern(r);
        let each = [
            (rows && !model::y_negative(r), "Y+"),
            (rows && model::y_negative(r), "Y-"),
            (pattern == Pattern::Solid, "a solid pattern"),
            (pattern == Pattern::Mono && !transparent, "a mono pattern"),
            (pattern == Pattern::Mono && transparent, "a transparent mono pattern"),
            (pattern == Pattern::Colour && !model::channel_3(r) && shows, "a colour pattern"),
            (pattern == Pattern::Colour && model::channel_3(r) && shows, "channel 3's pattern"),
            (code == 0xCC, "code CCh"),
            (code == 0xF0, "code F0h"),
            (code == 0x5A, "code 5Ah"),
            (reads && code != 0xCC, "another code that reads the source"),
            (rows && commands > 1, "several rows in several data commands"),
        ];
        let each = each.iter().filter(|(holds, _)| *holds);
        kinds.extend(each.map(|(_, kind)| short_ways::at_depth(r, &format!("{name} {kind}"))));
        kinds
    }

    /// A command that is refused while data is wanted, or a data command that is refused: its kinds.
    pub fn refuse(&mut self, before: &State, ring: &[u32], number: u32) -> Vec<String> {
        let wanted = model::data_wanted(before);
        let drawn = before.place.map_or(0, |place| place.drawn);
        let waiting = model::waiting(before);
        let header = model::ring_word(before, ring, 0);
        let count_word = model::ring_word(before, ring, 1);
        let data = model::is_data(header);
        let bad_count = data && waiting > 1 && !model::data_word_good(before, count_word);
        let length = if data { 2 + model::data_count(count_word) } else { model::kind_of(header).map_or(4, model::command_length) };
        let left = before.ring_len - before.read;
        let (w, at_zero) = (model::has_w(header), before.read == 0);
        let misplaced = w && (at_zero || length > left);
        let name = name_of(header);
        let mut kinds = Vec::new();
        let mut take = |holds: bool, name: &str| if holds { kinds.push(name.to_string()) };
        match number {
            21 => {
                take(wanted, &format!("21 while data is wanted, {name}"));
                take(!wanted && data, "21 data that nobody wants");
                take(data && waiting == 1, "21 data, the header alone");
                take(bad_count, "21 data with a bad count word");
            }
            30 => {
                let kind = model::kind_of(header);
                let draws = kind.is_some_and(|kind| model::draws(kind, header));
                let whole = kind.is_some_and(|kind| waiting >= model::command_length(kind));
                let r = kind.map(|kind| model::registers_after(before, ring, kind));
                take(kind.is_none() || draws, &format!("30 by {name}"));
                take(kind.is_some() && !draws, &format!("30 by {name} that only loads"));
                take(whole && draws && name == "a BLT" && r.is_some_and(|r| model::host_source(&r)), "30 by a BLT with host source");
                take(waiting == 1, &format!("30 by {name}, the header alone"));
                let judged = kind.zip(r).map_or(0, |(kind, r)| model::judge(kind, &r, before.frame_len));
                take(whole && draws && judged != 0, "30 by a command that judging would refuse");
                let bad_table = kind.is_none() && waiting > 2 && !model::count_word_good(model::ring_word(before, ring, 2));
                take(bad_table, "30 by a table load with a bad count word");
                take(misplaced, "30 with W at a wrong place");
                take(drawn == 0, "30 before any data");
                take(drawn > 0, "30 after some pixels");
            }
            31 => {
                take(self.after_picture, "31 after a picture");
                take(!self.after_picture && !self.after_refusal, "31 after another command");
                take(self.after_refusal, "31 after a refusal");
                take(waiting == 1, "31, the header alone");
                take(bad_count, "31 with a bad count word");
                take(misplaced, "31 with W at a wrong place");
            }
            32 => {
                let faults = faults_of_32(before, count_word);
                if let [fault] = faults[..] {
                    take(true, fault);
                }
                take(faults.len() > 1, "32 by more than one fault");
                take(waiting == 2, "32 with two words waiting");
                take(waiting > 2, "32 with more words waiting");
                take(w && at_zero, "32 with W at ring word 0");
                take(w && !at_zero && length > left, "32 with W across the end");
                take(drawn == 0, "32 before any data");
                take(drawn > 0, "32 after some pixels");
            }
            _ => {
                take(at_zero && waiting == 2, "22 data at ring word 0, two words waiting");
                take(at_zero && waiting >= length, "22 data at ring word 0, whole");
                take(!at_zero && waiting == 2, "22 data across the end, two words waiting");
                take(!at_zero && waiting > 2, "22 data across the end, more words waiting");
                take(!at_zero && length == left + 1, "22 data across the end by one word");
                take(left == 1, "22 data, count word behind the end");
                take(drawn == 0, "22 data before any pixel");
                take(drawn > 0, "22 data after some pixels");
            }
        }
        if wanted {
            self.since.insert(format!("abandoned by {number}, then drawn"));
            self.abandoned = true;
        }
        self.refused();
        kinds
    }

    /// Any refusal.
    pub fn refused(&mut self) {
        self.after_picture = false;
        self.after_refusal = true;
    }

    /// A word stored over the data command that is accepted.
    pub fn store(&mut self, state: &State, ring: &[u32], position: u32) {
        let (Some(place), Some((count, w, before))) = (state.place, fed(&state.place)) else {
            return;
        };
        let into = (position + state.ring_len - state.read) % state.ring_len;
        let next = (model::word_of_pixel(&state.registers, place.drawn) - before) as u32;
        let name = match into {
            0 if !model::is_data(ring[position as usize]) || model::has_w(ring[position as usize]) != w => "header altered while fed",
            1 if model::data_count(ring[position as usize]) != count => "count word altered while fed",
            0 | 1 => return,
            _ if into < 2 + next => "a data word altered while fed, drawn already",
            _ if into < 2 + count => "a data word altered while fed, to be drawn",
            _ if w && into < state.ring_len - state.read => "a word skipped by W altered while fed",
            _ => return,
        };
        self.names.insert(name.to_string());
    }
}

/// The same BLT with its source in frame memory.
fn from_frame_memory(r: &Registers) -> Registers {
    let mut other = *r;
    other[BLT_MODE] = r[BLT_MODE] & !3 | 1;
    other
}

fn name_of(header: u32) -> &'static str {
    match model::kind_of(header) {
        Some(Kind::Blt) => "a BLT",
        Some(Kind::Vector) => "a vector",
        None if model::is_data(header) => "a data command",
        None => "a table load",
    }
}

/// Each reason for 32.
fn faults_of_32(state: &State, count_word: u32) -> Vec<&'static str> {
    let count = model::data_count(count_word);
    let faults = [
        (field(count_word, 31, 29) != 0, "32 DTYPE"),
        (field(count_word, 28, 16) != 0, "32 reserved bit"),
        (count == 0, "32 count 0"),
        (count == state.ring_len - 2, "32 count of ring size less 2"),
        (count > state.ring_len - 2, "32 count above that"),
    ];
    faults.into_iter().filter(|(holds, _)| *holds).map(|(_, name)| name).collect()
}

/// Each reason for 24 that host source alone has.
pub fn reasons_for_24(r: &Registers) -> Vec<&'static str> {
    if !model::host_source(r) {
        return Vec::new();
    }
    let mode = mode_name(r);
    let colour = mode == "colour";
    let pixels = model::pixel_count(Kind::Blt, r) > 0;
    let (depth, first, width) = (model::bytes_per_pixel(r), model::first_byte(r), model::width(r));
    let (two, four) = (colour && pixels && depth == Some(2), colour && pixels && depth == Some(4));
    let reasons = [
        (two && first == 1 && width == 2, "24 host 16 bpp, first byte 1, width 2"),
        (two && first == 1 && width > 2, "24 host 16 bpp, first byte 1, wider"),
        (two && first == 3 && width == 1, "24 host 16 bpp, first byte 3, width 1"),
        (two && first == 3 && width > 1, "24 host 16 bpp, first byte 3, wider"),
        (four && first == 1, "24 host 32 bpp, first byte 1"),
        (four && first == 2, "24 host 32 bpp, first byte 2"),
        (four && first == 3, "24 host 32 bpp, first byte 3"),
        (colour && model::source_inversion(r), "24 host SI on colour"),
        (colour && model::source_transparency(r), "24 host ST on colour"),
        (mode == "undefined", "24 host SM 11"),
    ];
    reasons.into_iter().filter(|(holds, _)| *holds).map(|(_, name)| name).collect()
}

/// A BLT with host source that is refused by 25 or 27: its kinds.
pub fn refused_blt(r: &Registers, number: u32) -> Vec<String> {
    let straddles = mode_name(r) == "colour" && [2, 4].contains(&model::bytes_per_pixel(r).unwrap_or(1)) && model::first_byte(r) == 3;
    let kinds = [
        (number == 25 && straddles, "25 host, no pixel that could straddle"),
        (number == 27, "27 host"),
    ];
    kinds.into_iter().filter(|(holds, _)| model::host_source(r) && *holds).map(|(_, name)| name.to_string()).collect()
}

/// A BLT that wants data, for which a run answers waiting: its kinds.
pub fn waits(state: &State, ring: &[u32], budget: u32, used: bool) -> Vec<String> {
    let waiting = model::waiting(state);
    let (header, count_word) = (model::ring_word(state, ring, 0), model::ring_word(state, ring, 1));
    let w = model::has_w(header);
    let length = 2 + model::data_count(count_word);
    let drawn = state.place.map_or(0, |place| place.drawn);
    let mut kinds = Vec::new();
    let mut take = |holds: bool, name: &str| if holds { kinds.push(format!("data wanted{name}")) };
    take(waiting == 0, ", nothing waits");
    take(waiting == 0 && drawn > 0, " again, nothing waits");
    take(waiting == 1, ", 1 word waits");
    take(waiting == 1 && w && state.read == 0, ", W at ring word 0, 1 word waits");
    take(waiting == 1 && w && state.read + 1 == state.ring_len, ", W at the ring's last word, 1 word waits");
    take(waiting == 2, ", 2 words wait");
    take(2 < waiting && waiting < length, ", waits inside its data");
    take(1 < waiting && waiting + 1 == length, ", waits for its last word");
    take(1 < waiting && waiting >= length, ", W waits for the ring's end");
    take(budget == 0, ", budget 0");
    take(used, ", budget exactly used");
    kinds
}

/// A run that is spent while a BLT wants data or is fed: its kinds.
pub fn spent(state: &State) -> Vec<String> {
    let Some(place) = state.place.filter(|place| place.data != Data::Plain) else {
        return Vec::new();
    };
    let r = &state.registers;
    let same_word = place.drawn > 0 && model::word_of_pixel(r, place.drawn - 1) == model::word_of_pixel(r, place.drawn);
    let mut kinds = Vec::new();
    let mut take = |holds: bool, name: &str| if holds { kinds.push(name.to_string()) };
    let Some((_, _, before)) = fed(&state.place) else {
        take(place.drawn == 0, "spent while data is wanted");
        take(place.drawn > 0, "spent while data is wanted again");
        return kinds;
    };
    take(!same_word && model::word_of_pixel(r, place.drawn) == before, "spent right after accepting");
    take(place.drawn % model::width(r) != 0, "spent while fed, inside a row");
    take(same_word, "spent while fed, inside a word");
    take(place.drawn + 1 == model::pixel_count(Kind::Blt, r), "spent before the last pixel, fed");
    kinds
}

/// A call while a BLT wants data or is fed: how it is named, or nothing.
pub fn while_data(state: &State) -> Option<&'static str> {
    match state.place.map(|place| place.data) {
        Some(Data::Wanted) => Some("while data is wanted"),
        Some(Data::Fed { .. }) => Some("while fed"),
        _ => None,
    }
}

/// The length of the data command at the read pointer, if its count word waits and is good.
pub fn known_length(state: &State, ring: &[u32]) -> Option<u32> {
    let count_word = model::ring_word(state, ring, 1);
    (model::waiting(state) >= 2 && model::data_word_good(state, count_word)).then(|| 2 + model::data_count(count_word))
}

/// How often some sets came up: all of each must.
pub struct Sets {
    pub codes: [u64; 256],
    /// of colour at 8 bits: the first byte with the bytes of a row modulo 4
    pub first_bytes: [u64; 16],
    /// of unpacked and byte-packed: the first byte with XLSBS, and XLSBS with the width modulo 8
    pub first_bits: [[u64; 32]; 2],
    pub last_bits: [[u64; 64]; 2],
    /// of unpacked: the bits of a row from its first word's first bit, modulo 32
    pub row_ends: [u64; 32],
    /// of refused data commands: header bits 27:1, one alone; DTYPEs but 000 and reserved bits 28:16, where the count word has no other fault
    pub header_bits: [u64; 27],
    pub data_types: [u64; 7],
    pub reserved_bits: [u64; 13],
}

impl Sets {
    pub fn new() -> Sets {
        Sets {
            codes: [0; 256],
            first_bytes: [0; 16],
            first_bits: [[0; 32]; 2],
            last_bits: [[0; 64]; 2],
            row_ends: [0; 32],
            header_bits: [0; 27],
            data_types: [0; 7],
            reserved_bits: [0; 13],
        }
    }

    pub fn all(&self) -> Vec<(&str, &[u64])> {
        vec![
            ("raster codes of host sources", &self.codes),
            ("host colour at 8 bits: first byte with width modulo 4", &self.first_bytes),
            ("host unpacked: first byte with XLSBS", &self.first_bits[0]),
            ("host byte-packed: first byte with XLSBS", &self.first_bits[1]),
            ("host unpacked: XLSBS with width modulo 8", &self.last_bits[0]),
            ("host byte-packed: XLSBS with width modulo 8", &self.last_bits[1]),
            ("host unpacked: the bits of a row modulo 32", &self.row_ends),
            ("21 data: header bits 27:1", &self.header_bits),
            ("32: DTYPEs but 000", &self.data_types),
            ("32: reserved bits 28:16", &self.reserved_bits),
        ]
    }

    /// A BLT with host source that is drawn.
    pub fn drawn(&mut self, r: &Registers) {
        let (first, xlsbs, width) = (field(r[SRC_OFFSET], 1, 0) as usize, model::source_xlsbs(r) as usize, model::width(r) as usize);
        self.codes[field(r[RASTER_MODE], 7, 0) as usize] += 1;
        let slot = match mode_name(r) {
            "colour" => {
                if model::bytes_per_pixel(r) == Some(1) && model::height(r) > 1 {
                    self.first_bytes[4 * first + width % 4] += 1;
                }
                return;
            }
            "unpacked" => 0,
            _ => 1,
        };
        self.first_bits[slot][8 * first + xlsbs] += 1;
        self.last_bits[slot][8 * xlsbs + width % 8] += 1;
        if slot == 0 && model::height(r) > 1 {
            self.row_ends[(8 * first + xlsbs + width) % 32] += 1;
        }
    }

    /// A data command that is refused.
    pub fn refused(&mut self, before: &State, ring: &[u32], number: u32) {
        let bits = model::data_header_faults(model::ring_word(before, ring, 0));
        if number == 21 && bits.is_power_of_two() {
            self.header_bits[bits.trailing_zeros() as usize] += 1;
        }
        if number == 32 {
            let word = model::ring_word(before, ring, 1);
            let (data_type, reserved) = (field(word, 31, 29) as usize, field(word, 28, 16));
            let count_good = model::data_word_good(before, model::data_count(word));
            if count_good && reserved == 0 {
                self.data_types[data_type - 1] += 1;
            }
            if count_good && data_type == 0 && reserved.is_power_of_two() {
                self.reserved_bits[reserved.trailing_zeros() as usize] += 1;
            }
        }
    }
}
