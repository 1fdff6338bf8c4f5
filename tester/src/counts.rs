//! How often each refusal, answer and kind of drawing came up. A name in the list that never came up fails the run.

use crate::bases;
use crate::cases::span;
use crate::host::{self, mode_name};
use crate::model::{self, field, Answer, Data, Kind, Pattern, Registers, SourceMode, State, Table, Word};
use crate::model::{
    BLT_MODE, CH3_MODE_STR, CH3_OFFSET, DST_OFFSET, PAT_COLOR_0, RASTER_MODE, SRC_COLOR_FG, SRC_OFFSET, VECTOR_MODE,
    WID_HEIGHT,
};
use crate::programs::{Call, Watch};
use crate::short_ways::{self, MONO_PATTERN, OTHER_CODE, PLAIN, ROW_LENGTHS, TEXT, WAYS};
use crate::tables::{self, Follow};
use std::collections::BTreeMap;

/// Refusals 3 and 4 are not here: the programs hand on the state that they were given and lend what they set up. What W3 needs at each
/// depth is in `short_ways`, what W4 needs in `tables`, what W5 needs in `host`, what W6 needs in `bases` and `wide`.
const NEEDED: &[(&str, &[&str])] = &[
    ("refusals", &["1", "2", "5", "6", "7", "21", "22", "23", "24", "25", "26", "27", "28", "29", "30", "31", "32"]),
    (
        "refused for",
        &[
            "1 at 64 words", "1 at 1,023 words", "21 reserved bit", "21 before the command is whole", "22 at ring word 0",
            "22 across the end",
            "22 before the command is whole", "23 format", "23 alpha", "24 SM 11 with a source", "24 SM 11 without a source", "24 SR 11",
            "24 PM 11 of a BLT", "24 PM 11 under channel 3's pattern", "24 PM 01 of a vector", "24 PM 10 of a vector",
            "24 PM 11 of a vector", "24 SI of a vector", "24 ST of a vector", "24 SI on a colour source",
            "24 ST on a colour source", "24 SI with SM 00 and no source", "24 ST with SM 00 and no source", "24 PI of a BLT",
            "24 PI of a vector", "24 PI on a colour pattern", "24 PI on channel 3's pattern", "24 unpacked with X-",
            "24 byte-packed with X-", "24 byte-packed with Y-", "24 channel 3 without pattern mode", "24 channel 3 to the source",
            "24 channel 3 in another format", "24 channel 3 in another format of the same depth", "24 channel 3 with RO",
            "24 channel 3 with BGR", "24 channel 3 with PL", "24 channel 3 with PE", "24 channel 3 with HS", "24 channel 3 of a vector",
            "24 channel 3's pattern of a vector", "25 width", "25 height", "25 length", "26 axial", "26 diagonal",
            "27 BLT one byte before",
            "27 BLT one byte behind", "27 vector one byte before", "27 vector one byte behind", "28 colour one byte before",
            "28 colour one byte behind", "28 colour with a code that reads no source", "28 unpacked one byte before",
            "28 unpacked one byte behind", "28 unpacked by its XLSBS alone", "28 unpacked with a code that reads no source",
            "28 byte-packed one byte behind", "28 byte-packed by its XLSBS alone", "28 byte-packed with a code that reads no source",
        ],
    ),
    (
        "answers",
        &["setup 0", "setup at 1,024 words", "publish 0", "room 0", "restart 0", "run waiting", "run spent", "run stopped"],
    ),
    (
        "calls",
        &[
            "budget 0", "budget 1", "budget exactly used, waiting", "budget exactly used, stopped", "budget one short", "budget huge",
            "spent inside a BLT", "spent inside a vector", "spent between commands", "run on a stopped engine", "run on an empty ring",
            "part of a command waits", "W waits for the ring's end", "W waits for the last word of the ring", "publish the same position",
            "publish inside a command", "publish one word", "publish while drawing", "publish while stopped", "publish past the ring's end",
            "ring full", "refused 6 at the read position", "refused 6 while stopped", "restart drops words", "room while drawing",
            "room while stopped", "store over the command being drawn",
        ],
    ),
    (
        "drawn",
        &[
            "blt-solid", "blt-mono", "blt-mono-transparent", "blt-solid with PT set", "blt-source", "blt-no-source", "blt format 0000",
            "blt format 0100", "blt format 0101", "blt format 0110", "blt format 1000", "vector format 0000", "vector format 0100",
            "vector format 0101", "vector format 0110", "vector format 1000", "blt X+ Y+", "blt X- Y+", "blt X+ Y-", "blt X- Y-",
            "overlap 8 bpp", "overlap 16 bpp", "overlap 32 bpp", "overlap X+ Y+", "overlap X- Y+", "overlap X+ Y-", "overlap X- Y-",
            "overlap inside a pixel", "blt stride 0", "blt source stride 0", "blt first byte", "blt last byte", "blt source first byte",
            "blt source last byte", "blt of 4095", "vector X+ minor +", "vector X+ minor -", "vector X- minor +", "vector X- minor -",
            "vector Y+ minor +", "vector Y+ minor -", "vector Y- minor +", "vector Y- minor -", "vector length 1",
            "vector over 100 pixels", "vector error 0", "vector stride 0", "vector axial 32767", "vector diagonal -32768",
            "vector initial 32767", "vector initial -32768", "vector first byte", "vector last byte", "vector with its extreme inside",
            "idle bits set", "S set", "stale word skipped", "all enables", "kept RASTER_MODE", "kept WID_HEIGHT", "kept VEC_LEN",
            "BLT on VEC_LEN", "BLT on VEC_ERR", "vector on WID_HEIGHT", "vector on SRC_OFFSET", "load only BLT", "load only vector",
            "load only of bad values", "BLT across the end", "vector across the end", "W on a BLT", "W on a vector",
            "W ending at the ring's end", "W with words skipped", "retired by load", "retired by last pixel",
        ],
    ),
    (
        "mono sources",
        &[
            "unpacked", "unpacked plain", "unpacked inverted", "unpacked transparent", "unpacked inverted and transparent",
            "unpacked 8 bpp", "unpacked 16 bpp", "unpacked 32 bpp", "unpacked under a solid pattern", "unpacked under a mono pattern",
            "unpacked under a transparent pattern", "unpacked under a colour pattern", "unpacked code CCh", "unpacked code F0h",
            "unpacked code 5Ah", "unpacked Y-",
            "unpacked stride 0", "unpacked rows that share bytes", "unpacked rows longer by XLSBS", "unpacked font from the first byte",
            "unpacked font from the first byte, Y-", "unpacked font to the last byte",
            "unpacked font to the last bit", "unpacked font to the last byte, a stride past the end",
            "unpacked font with set and clear bits", "unpacked over its font", "unpacked reads a bit that it changed",
            "unpacked last pixel transparent", "spent inside unpacked", "byte-packed", "byte-packed plain", "byte-packed inverted",
            "byte-packed transparent", "byte-packed inverted and transparent", "byte-packed 8 bpp", "byte-packed 16 bpp",
            "byte-packed 32 bpp", "byte-packed under a solid pattern", "byte-packed under a mono pattern",
            "byte-packed under a transparent pattern", "byte-packed under a colour pattern", "byte-packed code CCh",
            "byte-packed code F0h", "byte-packed code 5Ah",
            "byte-packed rows unlike the stride", "byte-packed rows longer by XLSBS", "byte-packed font from the first byte",
            "byte-packed font to the last byte", "byte-packed font to the last bit",
            "byte-packed font to the last byte, by the stride past the end", "byte-packed font with set and clear bits",
            "byte-packed over its font", "byte-packed reads a bit that it changed", "byte-packed last pixel transparent",
            "spent inside byte-packed", "transparent by the source alone", "transparent by the pattern alone", "transparent by both",
            "mono source of 4095", "reserved bits beside XLSBS", "unpacked, no source, X-", "unpacked, no source, Y-",
            "byte-packed, no source, X-", "byte-packed, no source, Y-", "SI, no source, a code that reads it",
            "ST, no source, a code that reads it",
        ],
    ),
    (
        "X negative",
        &[
            "X- 8 bpp Y+, no source", "X- 8 bpp Y+, a source", "X- 8 bpp Y-, no source", "X- 8 bpp Y-, a source",
            "X- 16 bpp Y+, no source", "X- 16 bpp Y+, a source", "X- 16 bpp Y+, from byte 0", "X- 16 bpp Y+, to the last byte",
            "X- 16 bpp Y+, source from byte 0", "X- 16 bpp Y+, source to the last byte", "X- 16 bpp Y+, overlap to the right",
            "X- 16 bpp Y-, no source", "X- 16 bpp Y-, a source", "X- 16 bpp Y-, from byte 0", "X- 16 bpp Y-, to the last byte",
            "X- 16 bpp Y-, source from byte 0", "X- 16 bpp Y-, source to the last byte", "X- 16 bpp Y-, overlap to the right",
            "X- 16 bpp, SM mono, no source", "X- 16 bpp, a mono pattern", "X- 16 bpp, a transparent pattern",
            "X- 16 bpp drawn, 27 in document 01", "X- 16 bpp drawn, 28 in document 01", "spent inside X- 16 bpp",
            "27 X- 16 bpp, drawn in document 01", "27 X- 16 bpp, offset below a pixel's last byte",
            "28 X- 16 bpp, drawn in document 01", "28 X- 16 bpp, offset below a pixel's last byte", "vector back 16 bpp",
            "X- 32 bpp Y+, no source", "X- 32 bpp Y+, a source", "X- 32 bpp Y+, from byte 0", "X- 32 bpp Y+, to the last byte",
            "X- 32 bpp Y+, source from byte 0", "X- 32 bpp Y+, source to the last byte", "X- 32 bpp Y+, overlap to the right",
            "X- 32 bpp Y-, no source", "X- 32 bpp Y-, a source", "X- 32 bpp Y-, from byte 0", "X- 32 bpp Y-, to the last byte",
            "X- 32 bpp Y-, source from byte 0", "X- 32 bpp Y-, source to the last byte", "X- 32 bpp Y-, overlap to the right",
            "X- 32 bpp, SM mono, no source", "X- 32 bpp, a mono pattern", "X- 32 bpp, a transparent pattern",
            "X- 32 bpp drawn, 27 in document 01", "X- 32 bpp drawn, 28 in document 01", "spent inside X- 32 bpp",
            "27 X- 32 bpp, drawn in document 01", "27 X- 32 bpp, offset below a pixel's last byte",
            "28 X- 32 bpp, drawn in document 01", "28 X- 32 bpp, offset below a pixel's last byte", "vector back 32 bpp",
        ],
    ),
    (
        "inputs",
        &[
            "recording", "trace", "recording one byte short", "recording one byte long", "recording one word off", "recording empty",
            "recording below 16 bytes", "recording with ring over the limit", "recording with frame over the limit",
            "recording with ring refused", "recording with frame refused", "recording with position refused", "trace below two words",
            "trace with a cut record", "trace with an unknown op", "trace with a store outside", "trace with ring over the limit",
            "trace with frame over the limit", "trace with ring refused", "trace with frame refused", "trace of setup alone",
        ],
    ),
];

pub struct Counts {
    count: BTreeMap<String, u64>,
    blt_codes: [u64; 256],
    vector_codes: [u64; 256],
    opaque_origins: [u64; 64],
    transparent_origins: [u64; 64],
    portions: [u64; 18],
    mono_codes: [u64; 256],
    /// XLSBS with the width modulo 8, and the widths up to 17, of unpacked and of byte-packed sources
    mono_bits: [[u64; 64]; 2],
    mono_widths: [[u64; 17]; 2],
    /// by way, rows of each length in the list and longer ones
    row_lengths: [[u64; ROW_LENGTHS.len() + 1]; WAYS.len()],
    /// codes that differ in one bit from CCh, F0h and 5Ah, where they draw otherwise
    neighbours: [u64; 8 * PLAIN.len()],
    /// by depth, each bit of each code, of BLTs and of vectors
    blt_bits: [[u64; 2_048]; 3],
    vector_bits: [[u64; 2_048]; 3],
    /// origins of tiles that show: by RASTER_MODE, by channel 3
    tile_origins: [[u64; 64]; 2],
    tile_codes: [u64; 256],
    /// of refused table loads: header bits 27:2, one alone; DTYPEs but 011 and reserved bits 28:16, where the count word has no other fault
    header_bits: [u64; 26],
    data_types: [u64; 7],
    reserved_bits: [u64; 13],
    follow: Follow,
    pictures: host::Follow,
    host: host::Sets,
    bases: bases::Sets,
    pub units: u64,
    /// which kind of command wrote registers 2 and 4 last, in this case
    wrote: [Option<Kind>; 2],
    /// the first word and the length of the command loaded last
    loaded: (u32, u32),
    /// that command overtakes itself in a row
    overtakes: bool,
    /// no unit was done since the last call
    fresh: bool,
    /// this case is a recording: frame memory is compared where its run ends
    recording: bool,
}

impl Counts {
    pub fn new() -> Counts {
        let mut count = BTreeMap::new();
        for (_, names) in NEEDED.iter().chain(tables::NEEDED).chain(host::NEEDED).chain(bases::NEEDED) {
            for name in *names {
                count.insert(name.to_string(), 0);
            }
        }
        for (_, _, line) in lines() {
            for (name, _) in line {
                count.insert(name, 0);
            }
        }
        Counts {
            count,
            blt_codes: [0; 256],
            vector_codes: [0; 256],
            opaque_origins: [0; 64],
            transparent_origins: [0; 64],
            portions: [0; 18],
            mono_codes: [0; 256],
            mono_bits: [[0; 64]; 2],
            mono_widths: [[0; 17]; 2],
            row_lengths: [[0; ROW_LENGTHS.len() + 1]; WAYS.len()],
            neighbours: [0; 8 * PLAIN.len()],
            blt_bits: [[0; 2_048]; 3],
            vector_bits: [[0; 2_048]; 3],
            tile_origins: [[0; 64]; 2],
            tile_codes: [0; 256],
            header_bits: [0; 26],
            data_types: [0; 7],
            reserved_bits: [0; 13],
            follow: Follow::new(),
            pictures: host::Follow::new(),
            host: host::Sets::new(),
            bases: bases::Sets::new(),
            units: 0,
            wrote: [None, None],
            loaded: (0, 0),
            overtakes: false,
            fresh: true,
            recording: false,
        }
    }

    pub fn begin_case(&mut self, recording: bool) {
        self.wrote = [None, None];
        self.loaded = (0, 0);
        self.overtakes = false;
        self.fresh = true;
        self.recording = recording;
        self.follow = Follow::new();
        self.pictures = host::Follow::new();
    }

    pub fn hit(&mut self, name: &str) {
        match self.count.get_mut(name) {
            Some(count) => *count += 1,
            None => panic!("no such name in the list: {name}"),
        }
    }

    fn hit_if(&mut self, condition: bool, name: &str) {
        if condition {
            self.hit(name);
        }
    }

    fn hit_all(&mut self, names: Vec<String>) {
        for name in names {
            self.hit(&name);
        }
    }

    /// Prints all counts; true if none is zero.
    pub fn report(&self) -> bool {
        let mut missing = Vec::new();
        for (group, names) in NEEDED.iter().chain(tables::NEEDED).chain(host::NEEDED).chain(bases::NEEDED) {
            println!("{group}:");
            for name in *names {
                let count = self.count[*name];
                println!("  {name}: {count}");
                if count == 0 {
                    missing.push(format!("{group}: {name}"));
                }
            }
        }
        let mut last_group = "";
        for (group, kind, line) in lines() {
            if group != last_group {
                println!("{group}, at each depth:");
                last_group = group;
            }
            let counts: Vec<String> = line.iter().map(|(name, column)| format!("{column} {}", self.count[name])).collect();
            println!("  {kind}: {}", counts.join(", "));
            missing.extend(line.iter().filter(|(name, _)| self.count[name] == 0).map(|(name, _)| format!("{group}: {name}")));
        }
        println!("sets, all of which must come up:");
        let mut sets: Vec<(&str, &[u64])> = vec![
            ("raster codes of BLTs", &self.blt_codes),
            ("raster codes of vectors", &self.vector_codes),
            ("origins of opaque mono patterns", &self.opaque_origins),
            ("origins of transparent mono patterns", &self.transparent_origins),
            ("portions of 0 to 16 words and more", &self.portions),
            ("raster codes of mono sources", &self.mono_codes),
            ("unpacked: XLSBS with width modulo 8", &self.mono_bits[0]),
            ("byte-packed: XLSBS with width modulo 8", &self.mono_bits[1]),
            ("unpacked: widths 1 to 17", &self.mono_widths[0]),
            ("byte-packed: widths 1 to 17", &self.mono_widths[1]),
            ("codes one bit off CCh, F0h and 5Ah, where it shows", &self.neighbours),
            ("BLTs at 8 bits: the bits of the raster codes", &self.blt_bits[0]),
            ("BLTs at 16 bits: the bits of the raster codes", &self.blt_bits[1]),
            ("BLTs at 32 bits: the bits of the raster codes", &self.blt_bits[2]),
            ("vectors at 8 bits: the bits of the raster codes", &self.vector_bits[0]),
            ("vectors at 16 bits: the bits of the raster codes", &self.vector_bits[1]),
            ("vectors at 32 bits: the bits of the raster codes", &self.vector_bits[2]),
            ("origins of colour patterns", &self.tile_origins[0]),
            ("origins of channel 3's patterns", &self.tile_origins[1]),
            ("raster codes under a tile of more than one colour", &self.tile_codes),
            ("21 table load: header bits 27:2", &self.header_bits),
            ("29: DTYPEs but 011", &self.data_types),
            ("29: reserved bits 28:16", &self.reserved_bits),
        ];
        sets.extend(self.host.all());
        sets.extend(self.bases.all());
        let rows: Vec<String> = WAYS.iter().map(|way| format!("{way}: rows about 1, 8, 16, 32 and 64 bytes, and longer")).collect();
        sets.extend(rows.iter().zip(&self.row_lengths).map(|(name, set)| (name.as_str(), &set[..])));
        for (name, set) in sets {
            let seen = set.iter().filter(|count| **count > 0).count();
            println!("  {name}: {seen} of {}, each {} times or more", set.len(), set.iter().min().unwrap_or(&0));
            if seen < set.len() {
                missing.push(name.to_string());
            }
        }
        println!("units: {}", self.units);
        for name in &missing {
            println!("never came up: {name}");
        }
        missing.is_empty()
    }

    fn refused_command(&mut self, before: &State, ring: &[u32], number: u32) {
        self.hit(&number.to_string());
        self.follow.refused();
        let header = ring[before.read as usize];
        if model::is_data(header) {
            self.host.refused(before, ring, number);
        }
        if model::data_wanted(before) || model::is_data(header) {
            let kinds = self.pictures.refuse(before, ring, number);
            self.hit_all(kinds);
            return;
        }
        self.pictures.refused();
        let kind = match model::kind_of(header) {
            Some(kind) => kind,
            None => {
                self.refused_table_load(before, ring, number);
                return;
            }
        };
        let part = model::waiting(before) < model::command_length(kind);
        let r = model::registers_after(before, ring, kind);
        let blt = kind == Kind::Blt;
        let missed = |source: bool| {
            let (low, high) = span(kind, &r, source);
            (low == -1, high == i64::from(before.frame_len))
        };
        if number >= 27 && blt && model::x_negative(&r) {
            self.refused_back(&r, before.frame_len, number);
        }
        if number >= 23 && blt {
            self.hit_all(host::refused_blt(&r, number));
        }
        if number == 27 || number == 28 {
            let kinds = self.bases.refused(kind, &r, before.frame_len, number);
            self.hit_all(kinds);
        }
        match number {
            21 => {
                self.hit("21 reserved bit");
                self.hit_if(part, "21 before the command is whole");
            }
            22 => {
                self.hit(if before.read == 0 { "22 at ring word 0" } else { "22 across the end" });
                self.hit_if(part, "22 before the command is whole");
            }
            23 => {
                let format = model::bytes_per_pixel(&r).is_none();
                self.hit_if(format, "23 format");
                self.hit_if(!format, "23 alpha");
            }
            24 => {
                // one reason and no other
                if let [reason] = reasons_for_24(kind, &r)[..] {
                    self.hit(reason);
                }
            }
            25 => {
                self.hit_if(blt && model::width(&r) == 0, "25 width");
                self.hit_if(blt && model::height(&r) == 0, "25 height");
                self.hit_if(!blt, "25 length");
            }
            26 => {
                self.hit_if(model::axial(&r) < 0, "26 axial");
                self.hit_if(model::diagonal(&r) > 0, "26 diagonal");
            }
            27 => {
                let (low, high) = missed(false);
                self.hit_if(low, if blt { "27 BLT one byte before" } else { "27 vector one byte before" });
                self.hit_if(high, if blt { "27 BLT one byte behind" } else { "27 vector one byte behind" });
            }
            _ => {
                let (low, high) = missed(true);
                let mode = mode_name(&r);
                self.hit_if(low, &format!("28 {mode} one byte before"));
                self.hit_if(high, &format!("28 {mode} one byte behind"));
                self.hit_if(!reads_source(&r), &format!("28 {mode} with a code that reads no source"));
                if mode != "colour" {
                    let mut other = r;
                    other[SRC_OFFSET] &= !(7 << 26);
                    let accepted = model::judge(kind, &other, before.frame_len) == 0;
                    self.hit_if(accepted, &format!("28 {mode} by its XLSBS alone"));
                }
            }
        }
    }

    /// The faults that stand alone; the rest is told by following the table.
    fn refused_table_load(&mut self, before: &State, ring: &[u32], number: u32) {
        let bits = model::table_header_faults(model::ring_word(before, ring, 0));
        if bits.is_power_of_two() {
            self.header_bits[bits.trailing_zeros() as usize] += 1;
        }
        if number == 29 {
            let word = model::ring_word(before, ring, 2);
            let (data_type, reserved) = (field(word, 31, 29), field(word, 28, 16));
            let count_good = (1..=512).contains(&model::data_count(word));
            if count_good && reserved == 0 {
                self.data_types[data_type as usize - usize::from(data_type > 3)] += 1;
            }
            if count_good && data_type == 3 && reserved.is_power_of_two() {
                self.reserved_bits[reserved.trailing_zeros() as usize] += 1;
            }
        }
        let kinds = self.follow.refuse(before, ring, number);
        self.hit_all(kinds);
    }

    fn loaded_command(&mut self, before: &State, ring: &[u32], frame: &[u8], after: &State) {
        let header = ring[before.read as usize];
        let kinds = self.pictures.load(before, ring, after);
        self.hit_all(kinds);
        if model::is_table_load(header) {
            let kinds = self.follow.load(before, ring, after);
            self.hit_all(kinds);
            return;
        }
        let kind = match model::kind_of(header) {
            Some(kind) => kind,
            None => return,
        };
        let blt = kind == Kind::Blt;
        let list = model::words_of(kind);
        let length = model::command_length(kind);
        let enabled = |i: usize| (header >> i) & 1 == 1;
        self.loaded = (before.read, length);

        // the ring
        let end = before.read + length;
        self.hit_if(end > before.ring_len, if blt { "BLT across the end" } else { "vector across the end" });
        if model::has_w(header) {
            self.hit(if blt { "W on a BLT" } else { "W on a vector" });
            self.hit(if end == before.ring_len { "W ending at the ring's end" } else { "W with words skipped" });
        }
        self.hit_if(field(header, 28, 28) == 1, "S set");
        self.hit_if((0..list.len()).all(enabled), "all enables");
        let skipped = |i: usize| {
            let word = ring[((before.read as usize) + 1 + i) % ring.len()];
            !enabled(i) && word != before.registers[list[i]]
        };
        self.hit_if((0..list.len()).any(skipped), "stale word skipped");

        // what writes registers 2 and 4
        let draws = model::draws(kind, header);
        let other = if blt { Kind::Vector } else { Kind::Blt };
        let names = if blt { ["BLT on VEC_ERR", "BLT on VEC_LEN"] } else { ["vector on SRC_OFFSET", "vector on WID_HEIGHT"] };
        for (slot, register) in [SRC_OFFSET, WID_HEIGHT].iter().enumerate() {
            if enabled(*register) {
                self.wrote[slot] = Some(kind);
            }
            let used = !blt || *register == WID_HEIGHT || model::source_selected(&after.registers);
            self.hit_if(draws && used && self.wrote[slot] == Some(other), names[slot]);
        }

        if !draws {
            self.hit(if blt { "load only BLT" } else { "load only vector" });
            self.hit_if(model::judge(kind, &after.registers, after.frame_len) != 0, "load only of bad values");
            self.hit("retired by load");
            return;
        }
        self.hit_if(!enabled(RASTER_MODE), "kept RASTER_MODE");
        self.hit_if(!enabled(WID_HEIGHT), if blt { "kept WID_HEIGHT" } else { "kept VEC_LEN" });
        if !model::data_wanted(after) {
            self.drawing(kind, &after.registers, &after.table, frame);
        }
    }

    /// A pixel of a BLT that is fed; the BLT is counted when it is its last.
    fn fed_pixel(&mut self, before: &State, ring: &[u32], frame: &[u8], after: &State) {
        let kinds = self.pictures.pixel(before, ring, after, frame.len() as i64);
        self.hit_all(kinds);
        if after.place.is_none() {
            let (r, table) = (&before.registers, &before.table);
            let kinds = self.follow.draw(Kind::Blt, r, table, frame.len() as i64);
            self.hit_all(kinds);
            self.host.drawn(r);
            let kinds = self.bases.drawn(Kind::Blt, r);
            self.hit_all(kinds);
            self.row_length(r);
            for kind in short_ways::kinds(r, table, frame) {
                self.hit(&short_ways::at_depth(r, &kind));
            }
        }
    }

    fn drawing(&mut self, kind: Kind, r: &Registers, table: &Table, frame: &[u8]) {
        let frame_len = frame.len() as i64;
        let mut kinds = self.follow.draw(kind, r, table, frame_len);
        kinds.extend(self.bases.drawn(kind, r));
        self.hit_all(kinds);
        let raster = r[RASTER_MODE];
        let depth = model::bytes_per_pixel(r).unwrap_or(1);
        let code = field(raster, 7, 0) as usize;
        let idle = raster & 0x0F3F_C000 != 0;
        self.hit_if(idle, "idle bits set");
        let (low, high) = span(kind, r, false);
        if kind == Kind::Vector {
            self.vector_codes[code] += 1;
            self.hit(&format!("vector format {:04b}", field(raster, 31, 28)));
            let mode = r[VECTOR_MODE];
            let axis = if field(mode, 0, 0) == 1 { "Y" } else { "X" };
            let sign = |bit: u32| if field(mode, bit, bit) == 1 { "+" } else { "-" };
            self.hit(&format!("vector {axis}{} minor {}", sign(1), sign(2)));
            let x_back = sign(if axis == "X" { 1 } else { 2 }) == "-";
            self.hit_if(x_back && depth > 1, &format!("vector back {} bpp", 8 * depth));
            let pixels: Vec<_> = model::vector_pixels(r, depth).collect();
            // pixels that lie before or behind all that were drawn: as the vector finds them
            let (mut drawn, mut asked) = ((i64::MAX, i64::MIN), 0);
            for at in pixels.iter().map(|pixel| pixel.position).take(64) {
                if at + depth <= drawn.0 || drawn.1 < at {
                    let value = (0..depth).fold(0, |value, byte| value | u32::from(frame[(at + byte) as usize]) << (8 * byte));
                    asked |= asked_bits(depth, [r[PAT_COLOR_0], r[SRC_COLOR_FG], value]);
                }
                drawn = (drawn.0.min(at), drawn.1.max(at + depth - 1));
            }
            count_bits(&mut self.vector_bits, code, depth, asked);
            self.hit_if(pixels.len() == 1, "vector length 1");
            self.hit_if(pixels.len() > 100, "vector over 100 pixels");
            self.hit_if(pixels[..pixels.len() - 1].iter().any(|pixel| pixel.error == 0), "vector error 0");
            self.hit_if(pixels.len() > 1 && model::destination_stride(r) == 0, "vector stride 0");
            self.hit_if(pixels.len() > 1 && model::axial(r) == 32_767, "vector axial 32767");
            self.hit_if(pixels.len() > 1 && model::diagonal(r) == -32_768, "vector diagonal -32768");
            self.hit_if(pixels.len() > 1 && model::initial_error(r) == 32_767, "vector initial 32767");
            self.hit_if(pixels.len() > 1 && model::initial_error(r) == -32_768, "vector initial -32768");
            self.hit_if(low == 0, "vector first byte");
            self.hit_if(high == frame_len - 1, "vector last byte");
            let ends = [pixels[0].position, pixels[pixels.len() - 1].position];
            let inner = !ends.contains(&low) || !ends.contains(&(high - depth + 1));
            self.hit_if(inner, "vector with its extreme inside");
            return;
        }
        self.blt_codes[code] += 1;
        self.short_ways(r, table, frame);
        self.hit(&format!("blt format {:04b}", field(raster, 31, 28)));
        let transparent = field(raster, 10, 10) == 1;
        let origin = field(r[DST_OFFSET], 31, 26) as usize;
        match (model::pattern(r), transparent) {
            (Pattern::Solid, false) => self.hit("blt-solid"),
            (Pattern::Solid, true) => self.hit("blt-solid with PT set"),
            (Pattern::Mono, false) => {
                self.hit("blt-mono");
                self.opaque_origins[origin] += 1;
            }
            (Pattern::Mono, true) => {
                self.hit("blt-mono-transparent");
                self.transparent_origins[origin] += 1;
            }
            _ if short_ways::many_colours(r, table) => {
                let third = model::channel_3(r);
                let origin = if third { field(r[CH3_OFFSET], 31, 26) as usize } else { origin };
                self.tile_origins[usize::from(third)][origin] += u64::from(short_ways::reads_pattern(r));
                self.tile_codes[code] += 1;
            }
            _ => {}
        }
        let sign = |bit: u32| if field(r[BLT_MODE], bit, bit) == 1 { "-" } else { "+" };
        let way = format!("X{} Y{}", sign(9), sign(8));
        self.hit(&format!("blt {way}"));
        let rows = model::height(r) > 1;
        self.hit_if(rows && model::destination_stride(r) == 0, "blt stride 0");
        self.hit_if(low == 0, "blt first byte");
        self.hit_if(high == frame_len - 1, "blt last byte");
        self.hit_if(model::width(r) == 4_095 || model::height(r) == 4_095, "blt of 4095");
        if model::x_negative(r) {
            self.drawn_back(r, frame_len);
        }
        if !model::source_selected(r) {
            self.hit("blt-no-source");
            let mode = mode_name(r);
            if mode != "colour" {
                self.hit_if(model::x_negative(r), &format!("{mode}, no source, X-"));
                self.hit_if(model::y_negative(r), &format!("{mode}, no source, Y-"));
                self.hit_if(reads_source(r) && model::source_inversion(r), "SI, no source, a code that reads it");
                self.hit_if(reads_source(r) && model::source_transparency(r), "ST, no source, a code that reads it");
            }
            return;
        }
        if model::source_mode(r) != SourceMode::Colour {
            self.mono_source(r, table, frame);
            return;
        }
        self.hit("blt-source");
        self.hit_if(rows && model::source_stride(r) == 0, "blt source stride 0");
        let (first, last) = span(kind, r, true);
        self.hit_if(first == 0, "blt source first byte");
        self.hit_if(last == frame_len - 1, "blt source last byte");
        let apart = (model::source_start(r) - model::destination_start(r)).abs();
        if first <= high && low <= last && apart != 0 {
            self.hit(&format!("overlap {} bpp", 8 * depth));
            self.hit(&format!("overlap {way}"));
            self.hit_if(apart < depth, "overlap inside a pixel");
        }
    }
}

impl Counts {
    /// A BLT with X negative that is drawn.
    fn drawn_back(&mut self, r: &Registers, frame_len: i64) {
        let depth = model::bytes_per_pixel(r).unwrap_or(1);
        let back = format!("X- {} bpp", 8 * depth);
        let y = if model::y_negative(r) { "Y-" } else { "Y+" };
        let selected = model::source_selected(r);
        let rows = model::height(r) > 1 && model::destination_stride(r) > 0;
        self.hit_if(rows, &format!("{back} {y}, {} source", if selected { "a" } else { "no" }));
        if depth == 1 {
            return;
        }
        self.hit_if(!selected && mode_name(r) != "colour", &format!("{back}, SM mono, no source"));
        let mono = model::pattern(r) == Pattern::Mono;
        let transparent = field(r[RASTER_MODE], 10, 10) == 1;
        self.hit_if(mono && !transparent, &format!("{back}, a mono pattern"));
        self.hit_if(mono && transparent, &format!("{back}, a transparent pattern"));
        let (low, high) = span(Kind::Blt, r, false);
        self.hit_if(rows && low == 0, &format!("{back} {y}, from byte 0"));
        self.hit_if(rows && high == frame_len - 1, &format!("{back} {y}, to the last byte"));
        if selected && rows && model::source_stride(r) > 0 {
            let (first, last) = span(Kind::Blt, r, true);
            self.hit_if(first == 0, &format!("{back} {y}, source from byte 0"));
            self.hit_if(last == frame_len - 1, &format!("{back} {y}, source to the last byte"));
            let right = model::destination_start(r) - model::source_start(r);
            let alike = model::source_stride(r) == model::destination_stride(r);
            self.hit_if(alike && 0 < right && right < depth * model::width(r), &format!("{back} {y}, overlap to the right"));
        }
        let number = model::judge(Kind::Blt, &as_in_document_01(r), frame_len as u32);
        self.hit_if(number != 0, &format!("{back} drawn, {number} in document 01"));
    }

    /// A BLT with X negative that is refused by 27 or 28.
    fn refused_back(&mut self, r: &Registers, frame_len: u32, number: u32) {
        let depth = model::bytes_per_pixel(r).unwrap_or(1);
        if depth > 1 {
            let name = format!("{number} X- {} bpp", 8 * depth);
            let drawn = model::judge(Kind::Blt, &as_in_document_01(r), frame_len) == 0;
            self.hit_if(drawn, &format!("{name}, drawn in document 01"));
            let start = if number == 27 { model::destination_start(r) } else { model::source_start(r) };
            self.hit_if(start < depth - 1, &format!("{name}, offset below a pixel's last byte"));
        }
    }
}

/// The BLT with X negative whose pixels lie where document 01 puts those of this one.
fn as_in_document_01(r: &Registers) -> Registers {
    let mut moved = *r;
    let bytes = model::bytes_per_pixel(r).unwrap_or(1) as u32;
    for register in [DST_OFFSET, SRC_OFFSET] {
        moved[register] = (r[register] & 0xFF00_0000) | (field(r[register], 23, 0) + bytes - 1).min(0x00FF_FFFF);
    }
    moved
}

impl Counts {
    /// A BLT from a font in frame memory, which is shown as the BLT finds it.
    fn mono_source(&mut self, r: &Registers, table: &Table, frame: &[u8]) {
        let mode = mode_name(r);
        let raster = r[RASTER_MODE];
        let code = field(raster, 7, 0);
        let depth = model::bytes_per_pixel(r).unwrap_or(1);
        let (width, height, xlsbs) = (model::width(r), model::height(r), model::source_xlsbs(r));
        let transparent = model::source_transparency(r);
        let hidden = model::pattern(r) == Pattern::Mono && field(raster, 10, 10) == 1;
        self.hit(mode);
        let bits = match (model::source_inversion(r), transparent) {
            (false, false) => "plain",
            (true, false) => "inverted",
            (false, true) => "transparent",
            (true, true) => "inverted and transparent",
        };
        self.hit(&format!("{mode} {bits}"));
        self.hit(&format!("{mode} {} bpp", 8 * depth));
        let pattern = match (model::pattern(r), hidden) {
            (Pattern::Solid, _) => "solid",
            (Pattern::Mono, false) => "mono",
            (Pattern::Mono, true) => "transparent",
            _ => "colour",
        };
        self.hit(&format!("{mode} under a {pattern} pattern"));
        self.hit_if([0xCC, 0xF0, 0x5A].contains(&code), &format!("{mode} code {code:02X}h"));
        self.hit_if(r[SRC_OFFSET] & 0xE300_0000 != 0, "reserved bits beside XLSBS");
        self.hit_if(width == 4_095 || height == 4_095, "mono source of 4095");
        let slot = usize::from(mode == "byte-packed");
        self.mono_codes[code as usize] += 1;
        self.mono_bits[slot][(8 * xlsbs + width % 8) as usize] += 1;
        if width <= 17 {
            self.mono_widths[slot][width as usize - 1] += 1;
        }

        // the rows
        let row_bytes = (xlsbs + width + 7) / 8;
        let stride = model::source_stride(r);
        let rows = height > 1;
        self.hit_if(rows && row_bytes > (width + 7) / 8, &format!("{mode} rows longer by XLSBS"));
        let back = model::y_negative(r);
        if mode == "unpacked" {
            self.hit_if(rows && back, "unpacked Y-");
            self.hit_if(rows && stride == 0, "unpacked stride 0");
            self.hit_if(rows && stride > 0 && stride < row_bytes, "unpacked rows that share bytes");
        } else {
            self.hit_if(rows && stride != row_bytes, "byte-packed rows unlike the stride");
        }

        // the bounds
        let frame_len = frame.len() as i64;
        let (first, last) = span(Kind::Blt, r, true);
        self.hit_if(first == 0, &format!("{mode} font from the first byte"));
        self.hit_if(first == 0 && rows && back && stride > 0, "unpacked font from the first byte, Y-");
        if last == frame_len - 1 {
            self.hit(&format!("{mode} font to the last byte"));
            self.hit_if((xlsbs + width) % 8 == 0, &format!("{mode} font to the last bit"));
            let by_stride = model::source_start(r) + (height - 1) * stride;
            if mode == "unpacked" {
                self.hit_if(!back && by_stride + stride > frame_len, "unpacked font to the last byte, a stride past the end");
            } else {
                self.hit_if(by_stride + row_bytes > frame_len, "byte-packed font to the last byte, by the stride past the end");
            }
        }

        // the bits, for a while
        let (low, high) = span(Kind::Blt, r, false);
        self.hit_if(first <= high && low <= last, &format!("{mode} over its font"));
        let mut now = frame.to_vec();
        let (mut set, mut clear, mut changed) = (false, false, false);
        let (mut by_source, mut by_pattern, mut by_both) = (false, false, false);
        let count = model::pixel_count(Kind::Blt, r);
        for k in 0..count.min(5_000) {
            let pixel = model::blt_pixel(r, depth, k);
            let bit = model::stored_bit(&now, &pixel);
            set |= bit;
            clear |= !bit;
            changed |= bit != model::stored_bit(frame, &pixel);
            let gone = transparent && bit == model::source_inversion(r);
            if transparent && hidden {
                let covered = !model::pattern_bit(r, pixel.pattern_row, pixel.pattern_column);
                by_source |= gone && !covered;
                by_pattern |= !gone && covered;
                by_both |= gone && covered;
            }
            self.hit_if(gone && k == count - 1, &format!("{mode} last pixel transparent"));
            model::draw_blt_pixel(r, table, &mut now, k);
        }
        self.hit_if(set && clear, &format!("{mode} font with set and clear bits"));
        self.hit_if(changed, &format!("{mode} reads a bit that it changed"));
        self.hit_if(by_source, "transparent by the source alone");
        self.hit_if(by_pattern, "transparent by the pattern alone");
        self.hit_if(by_both, "transparent by both");
    }
}

impl Counts {
    /// A BLT that is drawn, by the ways of W3.
    fn short_ways(&mut self, r: &Registers, table: &Table, frame: &[u8]) {
        let depth = model::bytes_per_pixel(r).unwrap_or(1);
        let way = short_ways::way(r);
        self.row_length(r);
        let kinds = short_ways::kinds(r, table, frame);
        self.overtakes = kinds.contains(&format!("{}: overtakes in a row", WAYS[way]));
        for kind in kinds {
            self.hit(&short_ways::at_depth(r, &kind));
        }

        // the first pixels' operands
        let code = field(r[RASTER_MODE], 7, 0);
        let mut now = frame.to_vec();
        let (mut unlike, mut asked) = ([false; PLAIN.len()], 0);
        for k in 0..model::pixel_count(Kind::Blt, r).min(64) {
            if let Some([p, s, d]) = short_ways::operands(r, table, &now, k) {
                asked |= asked_bits(depth, [p, s, d]);
                let result = |code: u32| model::raster_operation(code, p, s, d, 8 * depth);
                for (plain, unlike) in PLAIN.iter().zip(&mut unlike) {
                    *unlike |= (code ^ plain).is_power_of_two() && result(code) != result(*plain);
                }
            }
            model::draw_blt_pixel(r, table, &mut now, k);
        }
        count_bits(&mut self.blt_bits, code as usize, depth, asked);
        for (i, plain) in PLAIN.iter().enumerate().filter(|(i, _)| unlike[*i]) {
            self.neighbours[8 * i + (code ^ plain).trailing_zeros() as usize] += 1;
        }
    }

    fn row_length(&mut self, r: &Registers) {
        let way = short_ways::way(r);
        let row = model::bytes_per_pixel(r).unwrap_or(1) * model::width(r);
        match ROW_LENGTHS.iter().position(|length| *length == row) {
            Some(slot) => self.row_lengths[way][slot] += 1,
            None if row > 65 => self.row_lengths[way][ROW_LENGTHS.len()] += 1,
            None => {}
        }
    }

    /// A run that begins with this pixel of a BLT.
    fn taken_up(&mut self, r: &Registers, table: &Table, drawn: i64) {
        let way = short_ways::way(r);
        let column = drawn % model::width(r);
        if column == 0 {
            return;
        }
        self.hit(&short_ways::at_depth(r, &format!("{}: taken up inside a row", WAYS[way])));
        if way <= OTHER_CODE && self.overtakes {
            self.hit(&short_ways::at_depth(r, &format!("{}: taken up inside a row that overtakes", WAYS[way])));
        }
        if way == TEXT && (model::source_xlsbs(r) + column) % 8 != 0 {
            self.hit(&short_ways::at_depth(r, "text: taken up inside a font byte"));
        }
        if way == MONO_PATTERN && column % 8 != 0 {
            let tile = if field(r[RASTER_MODE], 10, 10) == 1 { "a transparent tile" } else { "a tile" };
            self.hit(&short_ways::at_depth(r, &format!("mono pattern: taken up inside {tile}")));
        }
        if model::pattern(r) == Pattern::Colour && column % 8 != 0 && tables::tile_shows(r, table) {
            self.hit(&short_ways::at_depth(r, &format!("{} taken up inside a tile", tables::short_name(r))));
        }
    }
}

/// Which bits of the code these values of P, S and D ask for.
fn asked_bits(depth: i64, [p, s, d]: [u32; 3]) -> u32 {
    let side = |value: u32, set: bool| if set { value } else { !value };
    let asked = |bit: &u32| side(p, bit & 4 != 0) & side(s, bit & 2 != 0) & side(d, bit & 1 != 0);
    (0..8).filter(|bit| field(asked(bit), 8 * depth as u32 - 1, 0) != 0).map(|bit| 1 << bit).sum()
}

fn count_bits(bits: &mut [[u64; 2_048]; 3], code: usize, depth: i64, asked: u32) {
    for bit in (0..8).filter(|bit| asked >> bit & 1 == 1) {
        bits[depth as usize / 2][8 * code + bit] += 1;
    }
}

/// The lines of W3's, W4's and W5's kinds: group, kind, and its names with depth and direction.
fn lines() -> Vec<(&'static str, String, Vec<(String, String)>)> {
    let mut lines = Vec::new();
    for each in short_ways::NEEDED.iter().chain(tables::EACH).chain(host::EACH) {
        for of in each.of {
            for name in each.names {
                lines.push((each.group, format!("{of} {name}"), each.line(of, name)));
            }
        }
    }
    lines
}

/// False if the code gives the same for both source bits.
pub fn reads_source(r: &Registers) -> bool {
    let code = field(r[RASTER_MODE], 7, 0);
    (code >> 2) & 0x33 != code & 0x33
}

/// Every reason for 24.
fn reasons_for_24(kind: Kind, r: &Registers) -> Vec<&'static str> {
    let raster = r[RASTER_MODE];
    let blt = kind == Kind::Blt;
    let pattern_mode = field(raster, 9, 8);
    let source_select = field(r[BLT_MODE], 1, 0);
    let mode = mode_name(r);
    let (colour, from_frame) = (mode == "colour", source_select == 1);
    let (inversion, transparency) = (model::source_inversion(r), model::source_transparency(r));
    let (x, y) = (model::x_negative(r), model::y_negative(r));
    let pi = field(raster, 12, 12) == 1;
    let colour_pattern = blt && model::pattern(r) == Pattern::Colour;
    // channel 3
    let third = model::channel_3(r);
    let set = |bit: u32| field(r[CH3_MODE_STR], bit, bit) == 1;
    let (own, format) = (field(r[CH3_MODE_STR], 27, 24), field(raster, 31, 28));
    let bytes = |code: u32| {
        let mut other = *r;
        other[RASTER_MODE] = code << 28;
        model::bytes_per_pixel(&other)
    };
    let alike = own != format && bytes(own) == bytes(format);
    let faults = [!set(21), set(30), own != format, set(23), set(22), set(20), set(19), set(18)];
    let good_pattern = third && !faults.contains(&true);
    let reasons = [
        (blt && mode == "undefined" && source_select & 1 != 0, "24 SM 11 with a source"),
        (blt && mode == "undefined" && source_select == 0, "24 SM 11 without a source"),
        (blt && source_select == 3, "24 SR 11"),
        (blt && pattern_mode == 3 && !third, "24 PM 11 of a BLT"),
        (blt && pattern_mode == 3 && third, "24 PM 11 under channel 3's pattern"),
        (!blt && pattern_mode == 1, "24 PM 01 of a vector"),
        (!blt && pattern_mode == 2, "24 PM 10 of a vector"),
        (!blt && pattern_mode == 3, "24 PM 11 of a vector"),
        (!blt && inversion, "24 SI of a vector"),
        (!blt && transparency, "24 ST of a vector"),
        (blt && colour && inversion && source_select & 1 != 0, "24 SI on a colour source"),
        (blt && colour && transparency && source_select & 1 != 0, "24 ST on a colour source"),
        (blt && colour && inversion && source_select == 0, "24 SI with SM 00 and no source"),
        (blt && colour && transparency && source_select == 0, "24 ST with SM 00 and no source"),
        (blt && pi && !colour_pattern, "24 PI of a BLT"),
        (blt && pi && colour_pattern && !third, "24 PI on a colour pattern"),
        (blt && pi && third, "24 PI on channel 3's pattern"),
        (!blt && pi, "24 PI of a vector"),
        (blt && from_frame && mode == "unpacked" && x, "24 unpacked with X-"),
        (blt && from_frame && mode == "byte-packed" && x, "24 byte-packed with X-"),
        (blt && from_frame && mode == "byte-packed" && y, "24 byte-packed with Y-"),
        (blt && third && faults[0], "24 channel 3 without pattern mode"),
        (blt && third && faults[1], "24 channel 3 to the source"),
        (blt && third && faults[2] && !alike, "24 channel 3 in another format"),
        (blt && third && faults[2] && alike, "24 channel 3 in another format of the same depth"),
        (blt && third && faults[3], "24 channel 3 with RO"),
        (blt && third && faults[4], "24 channel 3 with BGR"),
        (blt && third && faults[5], "24 channel 3 with PL"),
        (blt && third && faults[6], "24 channel 3 with PE"),
        (blt && third && faults[7], "24 channel 3 with HS"),
        (!blt && third && !good_pattern, "24 channel 3 of a vector"),
        (!blt && good_pattern, "24 channel 3's pattern of a vector"),
    ];
    let host_alone = if blt { host::reasons_for_24(r) } else { Vec::new() };
    reasons.into_iter().filter(|(holds, _)| *holds).map(|(_, name)| name).chain(host_alone).collect()
}

/// The header of the command inside which the write pointer stands: it waits, the command's last word does not.
fn ends_inside(state: &State, ring: &[u32]) -> Option<u32> {
    let mut state = *state;
    while model::waiting(&state) > 0 {
        let header = model::ring_word(&state, ring, 0);
        let length = match model::kind_of(header) {
            Some(kind) => Some(model::command_length(kind)),
            None if model::is_data(header) => host::known_length(&state, ring),
            None => tables::known_length(&state, ring),
        };
        match length {
            Some(length) if model::waiting(&state) < length => return Some(header),
            Some(length) if !model::has_w(header) => state.read = (state.read + length) % state.ring_len,
            Some(_) => return None,
            None => return (model::waiting(&state) < if model::is_data(header) { 2 } else { 3 }).then_some(header),
        }
    }
    None
}

impl Watch for Counts {
    fn unit(&mut self, before: &State, ring: &[u32], frame: &[u8], after: &State) {
        self.units += 1;
        let wanted = model::data_wanted(before);
        if self.fresh {
            self.fresh = false;
            if let Some(place) = before.place.filter(|place| place.kind == Kind::Blt && !wanted) {
                self.taken_up(&before.registers, &before.table, place.drawn);
            }
        }
        if after.stop != 0 {
            self.refused_command(before, ring, after.stop);
        } else if wanted {
            self.pictures.accept(before, ring);
        } else if let Some(place) = before.place {
            self.hit_if(after.place.is_none(), "retired by last pixel");
            if place.data != Data::Plain {
                self.fed_pixel(before, ring, frame, after);
            }
        } else {
            self.loaded_command(before, ring, frame, after);
        }
    }

    fn call(&mut self, call: Call, before: &State, ring: &[u32], answer: &Answer, after: &State) {
        self.fresh = true;
        if let Word::Refused(number) = answer.word {
            self.hit(&number.to_string());
            self.hit_if(number == 1 && ring.len() == 64, "1 at 64 words");
            self.hit_if(number == 1 && ring.len() == 1_023, "1 at 1,023 words");
            if let Call::Publish(position) = call {
                self.hit_if(number == 6 && position == before.read, "refused 6 at the read position");
                self.hit_if(number == 6 && before.stop != 0, "refused 6 while stopped");
            }
            self.hit_while_data(before, number == 7, "7");
            return;
        }
        let drawing = before.place.is_some();
        let stopped = before.stop != 0;
        match call {
            Call::Setup => {
                self.hit("setup 0");
                self.hit_if(ring.len() == 1_024, "setup at 1,024 words");
            }
            Call::Room => {
                self.hit("room 0");
                self.hit_if(drawing, "room while drawing");
                self.hit_while_data(before, true, "room");
                self.hit_if(stopped, "room while stopped");
            }
            Call::Restart => {
                self.hit("restart 0");
                self.follow.restarted();
                self.hit_if(before.read != before.write, "restart drops words");
            }
            Call::Publish(position) => {
                self.hit("publish 0");
                let portion = model::waiting(after) - model::waiting(before);
                self.portions[(portion as usize).min(17)] += 1;
                self.hit_if(portion == 0, "publish the same position");
                self.hit_if(portion == 1, "publish one word");
                self.hit_if(drawing && portion > 0, "publish while drawing");
                self.hit_if(stopped && portion > 0, "publish while stopped");
                self.hit_if(position < before.write, "publish past the ring's end");
                self.hit_if(answer.room == 0, "ring full");
                self.hit_while_data(before, portion > 0, "publish");
                if let Some(header) = ends_inside(after, ring).filter(|_| portion > 0) {
                    self.hit("publish inside a command");
                    self.hit_if(model::is_data(header), "publish inside a data command");
                }
            }
            Call::Run(budget) => self.run_answer(budget, before, ring, answer, after),
        }
    }

    fn store(&mut self, state: &State, ring: &[u32], position: u32) {
        self.pictures.store(state, ring, position);
        let (first, length) = self.loaded;
        if state.place.is_some() && state.ring_len > 0 {
            let into = (position + state.ring_len - first) % state.ring_len;
            self.hit_if(into < length, "store over the command being drawn");
        }
    }
}

impl Counts {
    fn hit_while_data(&mut self, before: &State, condition: bool, name: &str) {
        if let Some(when) = host::while_data(before).filter(|_| condition) {
            self.hit(&format!("{name} {when}"));
        }
    }

    fn run_answer(&mut self, budget: u32, before: &State, ring: &[u32], answer: &Answer, after: &State) {
        self.hit_if(budget == 0, "budget 0");
        self.hit_if(budget == 1, "budget 1");
        self.hit_if(budget >= 1 << 31, "budget huge");
        let used = budget > 0 && answer.units == budget;
        match answer.word {
            Word::Waiting => {
                self.hit("run waiting");
                self.hit_if(used, "budget exactly used, waiting");
                let waiting = model::waiting(after);
                self.hit_if(answer.units == 0 && waiting == 0, "run on an empty ring");
                if model::data_wanted(after) {
                    self.hit_all(host::waits(after, ring, budget, used));
                    return;
                }
                if waiting > 0 {
                    let header = ring[after.read as usize];
                    if model::is_table_load(header) {
                        self.hit_all(tables::waits(after, ring));
                        return;
                    }
                    let length = model::kind_of(header).map_or(0, model::command_length);
                    self.hit_if(waiting < length, "part of a command waits");
                    self.hit_if(waiting >= length, "W waits for the ring's end");
                    self.hit_if(
                        waiting >= length && after.write == after.ring_len - 1,
                        "W waits for the last word of the ring",
                    );
                }
            }
            Word::Spent => {
                self.hit("run spent");
                self.hit_all(host::spent(after));
                match after.place {
                    Some(place) => {
                        self.hit(if place.kind == Kind::Blt { "spent inside a BLT" } else { "spent inside a vector" });
                        let mono = model::source_selected(&after.registers) && mode_name(&after.registers) != "colour";
                        self.hit_if(place.kind == Kind::Blt && mono, &format!("spent inside {}", mode_name(&after.registers)));
                        let depth = model::bytes_per_pixel(&after.registers).unwrap_or(1);
                        let colour = place.kind == Kind::Blt && model::pattern(&after.registers) == Pattern::Colour;
                        self.hit_if(colour, &format!("spent inside {}", tables::with_article(&after.registers)));
                        let back = place.kind == Kind::Blt && model::x_negative(&after.registers) && depth > 1;
                        self.hit_if(back, &format!("spent inside X- {} bpp", 8 * depth));
                        if self.recording && place.kind == Kind::Blt && place.drawn % model::width(&after.registers) != 0 {
                            let way = WAYS[short_ways::way(&after.registers)];
                            self.hit(&short_ways::at_depth(&after.registers, &format!("{way}: recording ends inside a row")));
                        }
                        let left = model::pixel_count(place.kind, &after.registers) - place.drawn;
                        self.hit_if(left == 1 && used, "budget one short");
                    }
                    None => self.hit_if(used, "spent between commands"),
                }
            }
            _ => {
                self.hit("run stopped");
                self.hit_if(used, "budget exactly used, stopped");
                self.hit_if(before.stop != 0, "run on a stopped engine");
            }
        }
    }
}
