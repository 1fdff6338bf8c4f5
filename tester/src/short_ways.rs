//! W3: the BLTs on which a wrong short way would show. What must come up of them, and how it is known that it did: by following their
//! pixels, or by arithmetic.
//!
//! A BLT overtakes itself where it reads a source byte that it has changed: in a row, if a pixel of the same row changed it; across rows,
//! if a pixel of an earlier row did. It is in time where a row's source and destination share bytes, by another place than the same, and
//! no source byte is read after it was written.

use crate::cases::span;
use crate::counts::reads_source;
use crate::model::{self, field, Kind, Pattern, Registers, SourceMode, Table};
use crate::model::{PAT_COLOR_0, PAT_COLOR_1, RASTER_MODE, SRC_COLOR_BG, SRC_COLOR_FG};
use std::collections::BTreeSet;

/// Kinds that must come up at each of these depths and in each of these directions of X: each name behind each of `of`.
pub struct Each {
    pub group: &'static str,
    pub of: &'static [&'static str],
    pub bits: &'static [i64],
    pub x: &'static [&'static str],
    pub names: &'static [&'static str],
}

pub const NEEDED: &[Each] = &[
    Each {
        group: "colour sources",
        of: &["copy:", "other code:"],
        bits: &[8, 16, 32],
        x: &["X+", "X-"],
        names: &[
            "rows apart", "rows that touch", "onto itself", "in time", "in time by 1 to 15 bytes", "in time by 16 to 31 bytes",
            "in time by 32 to 63 bytes", "in time by 64 bytes and more", "in time, rows over 64 bytes", "overtakes in a row",
            "overtakes in a row by 1 to 15 bytes", "overtakes in a row by 16 to 31 bytes", "overtakes in a row by 32 to 63 bytes",
            "overtakes in a row by 64 bytes and more", "overtakes in a row of over 64 bytes", "overtakes at a row's last pixel alone",
            "overtakes in a row that shares one byte", "overtakes across rows alone, Y+", "overtakes across rows alone, Y-",
        ],
    },
    Each {
        group: "colour sources, between pixels",
        of: &["copy:", "other code:"],
        bits: &[16, 32],
        x: &["X+", "X-"],
        names: &[
            "in time, not by whole pixels", "in time, by less than a pixel", "overtakes in a row, not by whole pixels",
            "overtakes in a row, by less than a pixel",
        ],
    },
    Each {
        group: "plain codes",
        of: &["CCh", "F0h", "5Ah"],
        bits: &[8, 16, 32],
        x: &["X+", "X-"],
        names: &[
            "with a colour source", "with a colour source under a mono pattern", "with a colour source under a transparent pattern",
            "with a colour source under a colour pattern", "with no source", "with no source under a mono pattern",
            "with no source under a transparent pattern", "with no source under a colour pattern",
        ],
    },
    Each {
        group: "mono patterns",
        of: &["mono pattern:"],
        bits: &[8, 16, 32],
        x: &["X+", "X-"],
        names: &[
            "rows over 8 pixels and 32 bytes", "transparent rows over 8 pixels and 32 bytes", "taken up inside a tile",
            "taken up inside a transparent tile",
        ],
    },
    Each {
        group: "text",
        of: &["CCh text:", "F0h text:", "5Ah text:"],
        bits: &[8, 16, 32],
        x: &["X+"],
        names: &[
            "set and transparent pixels, Y+", "set and transparent pixels, Y-", "font inside its row", "font across an end of its row",
            "font right before its row", "font right behind its row", "a font byte changed between its bits",
        ],
    },
    Each {
        group: "rows",
        of: &["copy:", "other code:", "fill:", "XOR:", "mono pattern:", "colour pattern:", "sourceless:", "host:"],
        bits: &[8, 16, 32],
        x: &["X+", "X-"],
        names: &[
            "from the first byte", "to the last byte", "rows over 64 bytes", "rows that share bytes", "taken up inside a row",
            "recording ends inside a row",
        ],
    },
    Each {
        group: "rows that overtake",
        of: &["copy:", "other code:"],
        bits: &[8, 16, 32],
        x: &["X+", "X-"],
        names: &["taken up inside a row that overtakes"],
    },
    Each {
        group: "rows of text",
        of: &["text:"],
        bits: &[8, 16, 32],
        x: &["X+"],
        names: &[
            "from the first byte", "to the last byte", "rows over 64 bytes", "rows that share bytes", "taken up inside a row",
            "taken up inside a font byte", "recording ends inside a row",
        ],
    },
];

impl Each {
    /// The whole names of one line, each with its depth and direction.
    pub fn line(&self, of: &str, name: &str) -> Vec<(String, String)> {
        let columns = self.bits.iter().flat_map(|bits| self.x.iter().map(move |x| format!("{bits} bpp {x}")));
        columns.map(|column| (format!("{of} {name}, {column}"), column)).collect()
    }
}

/// The whole name of a kind at this BLT's depth and direction.
pub fn at_depth(r: &Registers, name: &str) -> String {
    let x = if model::x_negative(r) { "X-" } else { "X+" };
    format!("{name}, {} bpp {x}", 8 * model::bytes_per_pixel(r).unwrap_or(1))
}

/// The ways that BLTs may be drawn, each by a short way of its own or by none.
pub const WAYS: [&str; 9] = ["copy", "other code", "text", "fill", "XOR", "mono pattern", "sourceless", "colour pattern", "host"];
pub const OTHER_CODE: usize = 1;
pub const TEXT: usize = 2;
pub const MONO_PATTERN: usize = 5;
pub const COLOUR_PATTERN: usize = 7;
pub const HOST: usize = 8;

/// Rows of these many bytes, and longer ones, must come up for each way.
pub const ROW_LENGTHS: [i64; 13] = [1, 7, 8, 9, 15, 16, 17, 31, 32, 33, 63, 64, 65];

/// Codes with a short way of their own, and those that differ from them in one bit.
pub const PLAIN: [u32; 3] = [0xCC, 0xF0, 0x5A];

/// The pattern is mono, and transparent.
fn pattern_bits(r: &Registers) -> (bool, bool) {
    let mono = model::pattern(r) == Pattern::Mono;
    (mono, mono && field(r[RASTER_MODE], 10, 10) == 1)
}

/// False if the code gives the same for both pattern bits.
pub fn reads_pattern(r: &Registers) -> bool {
    let code = field(r[RASTER_MODE], 7, 0);
    code >> 4 != code & 0xF
}

/// The number of the BLT's way in the list.
pub fn way(r: &Registers) -> usize {
    let code = field(r[RASTER_MODE], 7, 0);
    let (mono, transparent) = pattern_bits(r);
    match model::source_mode(r) {
        _ if model::host_source(r) => HOST,
        SourceMode::Colour if model::source_selected(r) && reads_source(r) => usize::from(code != 0xCC || transparent),
        SourceMode::Unpacked | SourceMode::BytePacked if model::source_selected(r) => TEXT,
        _ if transparent || mono && reads_pattern(r) => MONO_PATTERN,
        _ if model::pattern(r) == Pattern::Colour && reads_pattern(r) => COLOUR_PATTERN,
        _ if code == 0xF0 => 3,
        _ if code == 0x5A => 4,
        _ => 6,
    }
}

/// How many pixels are followed at most.
const FOLLOWED: i64 = 1_000;

/// The kinds of this BLT, without depth and direction; frame memory as the BLT finds it.
pub fn kinds(r: &Registers, table: &Table, frame: &[u8]) -> BTreeSet<String> {
    let mut kinds = BTreeSet::new();
    let depth = model::bytes_per_pixel(r).unwrap_or(1);
    let row = depth * model::width(r);
    let name = WAYS[way(r)];
    let (low, high) = span(Kind::Blt, r, false);
    if low == 0 {
        kinds.insert(format!("{name}: from the first byte"));
    }
    if high == frame.len() as i64 - 1 {
        kinds.insert(format!("{name}: to the last byte"));
    }
    if row > 64 {
        kinds.insert(format!("{name}: rows over 64 bytes"));
    }
    if model::height(r) > 1 && (1..row).contains(&model::destination_stride(r)) {
        kinds.insert(format!("{name}: rows that share bytes"));
    }
    plain_code(r, table, &mut kinds);
    let (_, transparent) = pattern_bits(r);
    if way(r) == MONO_PATTERN && row > 32 && model::width(r) > 8 && shows_pattern(r) {
        kinds.insert(format!("{name}: {}rows over 8 pixels and 32 bytes", if transparent { "transparent " } else { "" }));
    }
    if way(r) == TEXT {
        text(r, table, frame, &mut kinds);
    }
    if way(r) <= OTHER_CODE && !transparent {
        colour_source(r, table, frame, name, &mut kinds);
    }
    kinds
}

/// The mono pattern has set and clear bits in the rectangle, and they are drawn otherwise.
fn shows_pattern(r: &Registers) -> bool {
    let bits = 8 * model::bytes_per_pixel(r).unwrap_or(1) as u32;
    let (width, height) = (model::width(r), model::height(r));
    let (mut set, mut clear) = (false, false);
    for j in 0..height.min(8) {
        for i in 0..width.min(8) {
            let pixel = model::blt_pixel(r, 1, j * width + i);
            let bit = model::pattern_bit(r, pixel.pattern_row, pixel.pattern_column);
            set |= bit;
            clear |= !bit;
        }
    }
    set && clear && (pattern_bits(r).1 || field(r[PAT_COLOR_0] ^ r[PAT_COLOR_1], bits - 1, 0) != 0)
}

/// The colour pattern has more than one colour in the rectangle.
pub fn many_colours(r: &Registers, table: &Table) -> bool {
    let depth = model::bytes_per_pixel(r).unwrap_or(1);
    let (width, height) = (model::width(r), model::height(r));
    let mut colours = BTreeSet::new();
    for j in 0..height.min(8) {
        for i in 0..width.min(8) {
            let pixel = model::blt_pixel(r, depth, j * width + i);
            colours.insert(model::tile_colour(table, depth, pixel.pattern_row, pixel.pattern_column));
        }
    }
    colours.len() > 1
}

/// CCh, F0h and 5Ah with each source but text, and each pattern.
fn plain_code(r: &Registers, table: &Table, kinds: &mut BTreeSet<String>) {
    let code = field(r[RASTER_MODE], 7, 0);
    let source = match (model::source_selected(r), model::source_mode(r)) {
        _ if model::host_source(r) => return,
        (false, _) => "no",
        (true, SourceMode::Colour) => "a colour",
        _ => return,
    };
    let pattern = match pattern_bits(r) {
        _ if model::pattern(r) == Pattern::Colour && !many_colours(r, table) => return,
        _ if model::pattern(r) == Pattern::Colour => " under a colour pattern",
        (false, _) => "",
        _ if !shows_pattern(r) => return,
        (true, false) => " under a mono pattern",
        (true, true) => " under a transparent pattern",
    };
    if PLAIN.contains(&code) {
        kinds.insert(format!("{code:02X}h with {source} source{pattern}"));
    }
}

/// Text by CCh, F0h and 5Ah, where the font's bits make a difference.
fn text(r: &Registers, table: &Table, frame: &[u8], kinds: &mut BTreeSet<String>) {
    let code = field(r[RASTER_MODE], 7, 0);
    let transparent = model::source_transparency(r);
    if !PLAIN.contains(&code) || !transparent && !reads_source(r) {
        return;
    }
    let mut take = |name: &str| kinds.insert(format!("{code:02X}h text: {name}"));
    let depth = model::bytes_per_pixel(r).unwrap_or(1);
    let (width, height) = (model::width(r), model::height(r));
    for j in 0..height.min(FOLLOWED / width + 1) {
        let (first, last) = (model::blt_pixel(r, depth, j * width), model::blt_pixel(r, depth, (j + 1) * width - 1));
        let (low, high) = (first.destination, last.destination + depth - 1);
        if low <= first.source && last.source <= high {
            take("font inside its row");
        } else if low <= last.source && first.source <= high {
            take("font across an end of its row");
        }
        if last.source + 1 == low {
            take("font right before its row");
        }
        if high + 1 == first.source {
            take("font right behind its row");
        }
    }
    let mut now = frame.to_vec();
    let (mut set, mut clear, mut held) = (false, false, 0);
    for k in 0..model::pixel_count(Kind::Blt, r).min(FOLLOWED) {
        let pixel = model::blt_pixel(r, depth, k);
        let bit = model::stored_bit(&now, &pixel);
        set |= bit;
        clear |= !bit;
        if k % width == 0 || pixel.source_bit == 7 {
            held = now[pixel.source as usize]; // the byte at the first of its bits
        }
        if (held >> pixel.source_bit & 1 == 1) != bit {
            take("a font byte changed between its bits");
        }
        model::draw_blt_pixel(r, table, &mut now, k);
    }
    if transparent && set && clear {
        take(if model::y_negative(r) { "set and transparent pixels, Y-" } else { "set and transparent pixels, Y+" });
    }
}

/// How a colour source and the drawn rows meet.
fn colour_source(r: &Registers, table: &Table, frame: &[u8], name: &str, kinds: &mut BTreeSet<String>) {
    let mut take = |kind: String| kinds.insert(format!("{name}: {kind}"));
    let depth = model::bytes_per_pixel(r).unwrap_or(1);
    let (width, height) = (model::width(r), model::height(r));
    let row = depth * width;
    let count = model::pixel_count(Kind::Blt, r).min(FOLLOWED);
    let ((low, high), (first, last)) = (span(Kind::Blt, r, false), span(Kind::Blt, r, true));
    let apart = last < low || high < first;
    if apart {
        take("rows apart".to_string());
    }
    let mut shared = BTreeSet::new();
    for j in 0..height.min(FOLLOWED / width + 1) {
        let pixel = model::blt_pixel(r, depth, j * width);
        let by = (pixel.source - pixel.destination).abs();
        if by == row {
            take("rows that touch".to_string());
        } else if by == 0 {
            take("onto itself".to_string());
        } else if by < row {
            shared.insert(by);
        }
    }
    if apart {
        return;
    }
    // of each byte: the row that wrote it last, counted from 1, and what stood there when that row began
    let mut writer = vec![0; frame.len()];
    let mut before = vec![0; frame.len()];
    let mut now = frame.to_vec();
    let (mut met, mut met_in_row, mut across) = (false, false, false);
    // the distances and the columns at which it overtakes in a row
    let (mut overtaken, mut columns) = (BTreeSet::new(), BTreeSet::new());
    for k in 0..count {
        let pixel = model::blt_pixel(r, depth, k);
        let this_row = k / width + 1;
        for at in pixel.source as usize..(pixel.source + depth) as usize {
            met |= writer[at] != 0;
            met_in_row |= writer[at] == this_row;
            across |= writer[at] != 0 && now[at] != frame[at];
            if writer[at] == this_row && now[at] != before[at] {
                overtaken.insert((pixel.source - pixel.destination).abs());
                columns.insert(k % width);
            }
        }
        for at in pixel.destination as usize..(pixel.destination + depth) as usize {
            if writer[at] != this_row {
                writer[at] = this_row;
                before[at] = now[at];
            }
        }
        model::draw_blt_pixel(r, table, &mut now, k);
    }
    if across && !met_in_row {
        take(format!("overtakes across rows alone, Y{}", if model::y_negative(r) { "-" } else { "+" }));
    }
    if !columns.is_empty() && columns.iter().all(|column| *column == width - 1) {
        take("overtakes at a row's last pixel alone".to_string());
    }
    let (how, distances) = if met { ("overtakes in a row", overtaken) } else { ("in time", shared) };
    for by in distances {
        take(how.to_string());
        let bytes = match by {
            1..=15 => "1 to 15 bytes",
            16..=31 => "16 to 31 bytes",
            32..=63 => "32 to 63 bytes",
            _ => "64 bytes and more",
        };
        take(format!("{how} by {bytes}"));
        if row > 64 {
            take(if met { format!("{how} of over 64 bytes") } else { format!("{how}, rows over 64 bytes") });
        }
        if met && by == row - 1 {
            take(format!("{how} that shares one byte"));
        }
        if by % depth != 0 {
            take(format!("{how}, not by whole pixels"));
            if by < depth {
                take(format!("{how}, by less than a pixel"));
            }
        }
    }
}

/// Pattern, source and destination of a pixel of a BLT without host source, as memory then stands; none for a transparent one.
pub fn operands(r: &Registers, table: &Table, frame: &[u8], k: i64) -> Option<[u32; 3]> {
    let depth = model::bytes_per_pixel(r).unwrap_or(1);
    let pixel = model::blt_pixel(r, depth, k);
    let value = |first: i64| (0..depth).fold(0, |value, byte| value | u32::from(frame[(first + byte) as usize]) << (8 * byte));
    let source = match (model::source_selected(r), model::source_mode(r)) {
        (false, _) => r[SRC_COLOR_FG],
        (true, SourceMode::Colour) => value(pixel.source),
        _ if model::stored_bit(frame, &pixel) != model::source_inversion(r) => r[SRC_COLOR_FG],
        _ if model::source_transparency(r) => return None,
        _ => r[SRC_COLOR_BG],
    };
    let (mono, transparent) = pattern_bits(r);
    let set = mono && model::pattern_bit(r, pixel.pattern_row, pixel.pattern_column);
    if transparent && !set {
        return None;
    }
    let pattern = match model::pattern(r) {
        Pattern::Colour => model::tile_colour(table, depth, pixel.pattern_row, pixel.pattern_column),
        _ => r[if set { PAT_COLOR_1 } else { PAT_COLOR_0 }],
    };
    Some([pattern, source, value(pixel.destination)])
}
