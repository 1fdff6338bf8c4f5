//! W6: what must come up of BASE_OFFSET in the memory of the small programs, where every base above 0 lies outside. What needs more memory is
//! in `wide`.

use crate::host::mode_name;
use crate::model::{self, field, Kind, Registers};
use crate::model::BASE_OFFSET;

pub const NEEDED: &[(&str, &[&str])] = &[(
    "bases",
    &[
        "27 BLT by its base alone", "27 BLT with a source by its base alone", "27 host BLT by its base alone", "27 vector by its base alone",
        "28 colour by its base alone", "28 unpacked by its base alone", "28 byte-packed by its base alone",
        "28 by its base alone, a code that reads no source", "27 by its base, 28 by its own", "drawn: no source, a source base",
        "drawn: mono mode and no source, a source base", "drawn: host colour, a source base", "drawn: host unpacked, a source base",
        "drawn: host byte-packed, a source base", "drawn: vector, a source base", "drawn: colour source, channel 3's base",
        "drawn: unpacked source, channel 3's base", "drawn: byte-packed source, channel 3's base", "drawn: no source, channel 3's base",
        "drawn: host source, channel 3's base", "drawn: vector, channel 3's base", "drawn: channel 3's pattern, its base",
        "drawn: BLT, bits 1:0", "drawn: vector, bits 1:0", "drawn: all bits without effect",
    ],
)];

/// Bits of BASE_OFFSET that came up.
pub struct Sets {
    /// a single bit of the destination's base that 27 refused, and of the source's that 28 refused
    destination: [u64; 10],
    source: [u64; 10],
    /// bits 11:0 of commands that are drawn, and the source's of those without a source in frame memory
    idle: [u64; 12],
    idle_source: [u64; 10],
}

impl Sets {
    pub fn new() -> Sets {
        Sets { destination: [0; 10], source: [0; 10], idle: [0; 12], idle_source: [0; 10] }
    }

    pub fn all(&self) -> Vec<(&str, &[u64])> {
        vec![
            ("27 by one bit of the destination's base", &self.destination),
            ("28 by one bit of the source's base", &self.source),
            ("drawn: bits 11:0 of BASE_OFFSET", &self.idle),
            ("drawn: bits of a source base without a source in frame memory", &self.idle_source),
        ]
    }

    /// A command that 27 or 28 refuses: the kinds of those that would be drawn but for their base.
    pub fn refused(&mut self, kind: Kind, r: &Registers, frame_len: u32, number: u32) -> Vec<String> {
        let mut kinds = Vec::new();
        let mut take = |holds: bool, name: &str| if holds { kinds.push(name.to_string()) };
        let base = if number == 27 { field(r[BASE_OFFSET], 31, 22) } else { field(r[BASE_OFFSET], 21, 12) };
        let mut without = *r;
        without[BASE_OFFSET] &= if number == 27 { 0x003F_FFFF } else { 0xFFC0_0FFF };
        let left = model::judge(kind, &without, frame_len);
        take(number == 27 && left == 28, "27 by its base, 28 by its own");
        if left != 0 {
            return kinds;
        }
        let set = if number == 27 { &mut self.destination } else { &mut self.source };
        if base.is_power_of_two() {
            set[base.trailing_zeros() as usize] += 1;
        }
        let blt = kind == Kind::Blt;
        if number == 28 {
            take(true, &format!("28 {} by its base alone", mode_name(r)));
            take(!crate::counts::reads_source(r), "28 by its base alone, a code that reads no source");
            return kinds;
        }
        take(!blt, "27 vector by its base alone");
        take(blt && model::host_source(r), "27 host BLT by its base alone");
        take(blt && model::source_selected(r), "27 BLT with a source by its base alone");
        take(blt && !model::host_source(r) && !model::source_selected(r), "27 BLT by its base alone");
        kinds
    }

    /// A command that is drawn.
    pub fn drawn(&mut self, kind: Kind, r: &Registers) -> Vec<String> {
        let mut kinds = Vec::new();
        let mut take = |holds: bool, name: &str| if holds { kinds.push(format!("drawn: {name}")) };
        let base = r[BASE_OFFSET];
        let (source, third, reserved) = (field(base, 21, 12) != 0, field(base, 11, 2) != 0, field(base, 1, 0) != 0);
        let blt = kind == Kind::Blt;
        let (selected, host) = (blt && model::source_selected(r), blt && model::host_source(r));
        let none = blt && !selected && !host;
        let mode = mode_name(r);
        take(none && source, "no source, a source base");
        take(none && mode != "colour" && source, "mono mode and no source, a source base");
        take(host && source, &format!("host {mode}, a source base"));
        take(!blt && source, "vector, a source base");
        take(selected && third, &format!("{mode} source, channel 3's base"));
        take(none && third, "no source, channel 3's base");
        take(host && third, "host source, channel 3's base");
        take(!blt && third, "vector, channel 3's base");
        take(blt && model::channel_3(r) && third, "channel 3's pattern, its base");
        take(reserved, if blt { "BLT, bits 1:0" } else { "vector, bits 1:0" });
        take(base == if selected { 0xFFF } else { 0x003F_FFFF }, "all bits without effect");
        for bit in (0..12).filter(|bit| base >> bit & 1 == 1) {
            self.idle[bit] += 1;
        }
        for bit in (12..22).filter(|bit| base >> bit & 1 == 1) {
            self.idle_source[bit - 12] += 1;
        }
        kinds
    }
}
