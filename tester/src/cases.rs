//! Random cases: recordings and traces, directed so that accepted drawing is common and every refusal comes up.

use crate::model::{self, Data, Kind, Pattern, Registers, SourceMode, State, Word};
use crate::model::{
    BASE_OFFSET, BLT_MODE, CH3_MODE_STR, CH3_OFFSET, CH3_WIDHI, DST_OFFSET, LUT_INDEX, PAT_COLOR_0, PAT_COLOR_1, PAT_DATA_0,
    PAT_DATA_1, RASTER_MODE, SRC_COLOR_BG, SRC_COLOR_FG, SRC_OFFSET, STRIDE, VECTOR_MODE, VEC_ERR, VEC_LEN, WID_HEIGHT,
};
use crate::short_ways::{self, PLAIN, ROW_LENGTHS, WAYS};
use std::collections::VecDeque;

// ---- Random numbers -------------------------------------------------------------------------------------------------------------

/// xorshift64*
pub struct Rng(u64);

impl Rng {
    /// The generator of one case: the seed and the case's number, mixed so that neighbours differ.
    pub fn of_case(seed: u64, case: u64) -> Rng {
        let mut z = seed.wrapping_add((case + 1).wrapping_mul(0x9E37_79B9_7F4A_7C15));
        z = (z ^ (z >> 30)).wrapping_mul(0xBF58_476D_1CE4_E5B9);
        z = (z ^ (z >> 27)).wrapping_mul(0x94D0_49BB_1331_11EB);
        Rng((z ^ (z >> 31)) | 1)
    }

    fn next(&mut self) -> u64 {
        self.0 ^= self.0 >> 12;
        self.0 ^= self.0 << 25;
        self.0 ^= self.0 >> 27;
        self.0.wrapping_mul(0x2545_F491_4F6C_DD1D)
    }

    pub fn below(&mut self, n: u64) -> u64 {
        (self.next() >> 16) % n
    }

    /// low to high, both included
    pub fn between(&mut self, low: i64, high: i64) -> i64 {
        low + self.below((high - low + 1) as u64) as i64
    }

    pub fn chance(&mut self, part: u64, whole: u64) -> bool {
        self.below(whole) < part
    }

    pub fn pick<T: Copy>(&mut self, list: &[T]) -> T {
        list[self.below(list.len() as u64) as usize]
    }

    pub fn bits(&mut self) -> u32 {
        (self.next() >> 32) as u32
    }

    /// A word that nobody cleaned: often random, sometimes zeros or ones.
    pub fn stale(&mut self) -> u32 {
        match self.below(6) {
            0 => 0,
            1 => u32::MAX,
            _ => self.bits(),
        }
    }

    /// A pattern's and a source's colour: often with all four pairs of their bits in every byte, so that all bits of a raster code come up.
    pub fn two_colours(&mut self) -> (u32, u32) {
        if self.chance(1, 2) {
            let turned = self.below(8) as u32;
            (0xF0F0_F0F0u32.rotate_left(turned), 0xCCCC_CCCCu32.rotate_left(turned))
        } else {
            (self.stale(), self.stale())
        }
    }

    /// Bits that have no effect: mostly zero, else random under the mask.
    pub fn idle(&mut self, mask: u32) -> u32 {
        if self.chance(2, 5) {
            self.bits() & mask
        } else {
            0
        }
    }
}

// ---- What a command covers ------------------------------------------------------------------------------------------------------

/// The lowest and highest byte of a command's destination (or source) pixels; of a mono source, of the bytes that hold its bits.
pub fn span(kind: Kind, registers: &Registers, source: bool) -> (i64, i64) {
    let depth = model::bytes_per_pixel(registers).unwrap_or(1);
    let mut low = i64::MAX;
    let mut high = i64::MIN;
    let mut take = |first: i64, bytes: i64| {
        low = low.min(first);
        high = high.max(first + bytes - 1);
    };
    match kind {
        Kind::Blt => {
            let (w, h) = (model::width(registers), model::height(registers));
            for k in [0, w - 1, w * (h - 1), w * h - 1] {
                let pixel = model::blt_pixel(registers, depth, k);
                if source {
                    take(pixel.source, pixel.source_bytes);
                } else {
                    take(pixel.destination, depth);
                }
            }
        }
        Kind::Vector => model::vector_pixels(registers, depth).for_each(|pixel| take(pixel.position, depth)),
    }
    (low, high)
}

pub fn set_offset(registers: &mut Registers, register: usize, offset: i64) {
    registers[register] = (registers[register] & 0xFF00_0000) | (offset as u32 & 0x00FF_FFFF);
}

/// Moves the destination (or source) to lie in the frame: at its first byte, at its last byte, or anywhere. False if it is too long.
fn settle(rng: &mut Rng, kind: Kind, registers: &mut Registers, frame_len: i64, source: bool) -> bool {
    let register = if source { SRC_OFFSET } else { DST_OFFSET };
    set_offset(registers, register, 0);
    let (low, high) = span(kind, registers, source);
    if high - low >= frame_len {
        return false;
    }
    let (first, last) = (-low, frame_len - 1 - high);
    let mut offset = match rng.below(5) {
        0 => first,
        1 => last,
        _ => rng.between(first, last),
    };
    if source && rng.chance(1, 2) {
        // near the destination, so that the copy overlaps, or a font is drawn over
        let depth = model::bytes_per_pixel(registers).unwrap_or(1);
        let reach = if rng.chance(1, 3) { depth } else { depth * 3 + 2 };
        let apart = if model::x_negative(registers) && rng.chance(1, 2) {
            -depth * rng.between(1, model::width(registers)) // a copy to the right
        } else {
            rng.between(-reach, reach)
        };
        offset = (model::destination_offset(registers) + apart).clamp(first, last);
    }
    set_offset(registers, register, offset);
    true
}

/// Moves source and destination of a BLT to lie in the frame, the source this many bytes behind the destination. False if they do not fit.
fn settle_both(rng: &mut Rng, r: &mut Registers, frame_len: i64, apart: i64) -> bool {
    set_offset(r, DST_OFFSET, 0);
    set_offset(r, SRC_OFFSET, 0);
    let ((low, high), (first, last)) = (span(Kind::Blt, r, false), span(Kind::Blt, r, true));
    let least = (-low).max(-first - apart);
    let most = (frame_len - 1 - high).min(frame_len - 1 - last - apart);
    if least > most {
        return false;
    }
    let offset = match rng.below(5) {
        0 => least,
        1 => most,
        _ => rng.between(least, most),
    };
    set_offset(r, DST_OFFSET, offset);
    set_offset(r, SRC_OFFSET, offset + apart);
    true
}

// ---- Commands -------------------------------------------------------------------------------------------------------------------

const CODES: [u32; 14] = [0x00, 0xFF, 0xF0, 0xCC, 0xAA, 0x5A, 0x66, 0x88, 0xEE, 0x0F, 0x33, 0x55, 0xE2, 0xB8];

fn raster_mode(rng: &mut Rng, kind: Kind, frame_len: i64) -> u32 {
    let format = match frame_len {
        1 => 0,
        2 | 3 => rng.pick(&[0, 4, 5, 6]),
        _ => rng.pick(&[0, 0, 0, 4, 5, 6, 8, 8, 8]),
    };
    let pattern = match rng.below(20) {
        _ if kind == Kind::Vector => 0,
        0..=7 => 0,
        8..=15 => 1,
        _ => 2,
    };
    let transparent = rng.chance(if pattern == 0 { 1 } else { 3 }, 6);
    let code = if rng.chance(5, 6) { rng.bits() & 0xFF } else { rng.pick(&CODES) };
    // OS, AS, CS and the reserved bits have no effect while alpha is off
    format << 28 | rng.idle(0x0F3F_C000) | u32::from(transparent) << 10 | pattern << 8 | code
}

const CH3_ON: u32 = 1 << 31;
const CH3_TO_SOURCE: u32 = 1 << 30;
const CH3_FORMAT: u32 = 0xF << 24;
const CH3_PATTERN: u32 = 1 << 21;

/// Channel 3's pattern in RASTER_MODE's format; its X and Y, the reserved bits and the stride have no effect.
fn channel_3_pattern(rng: &mut Rng, r: &mut Registers) {
    r[CH3_MODE_STR] = CH3_ON | CH3_PATTERN | r[RASTER_MODE] >> 28 << 24 | rng.idle(0x3000_0000) | rng.idle(0x0003_FFFF);
    r[CH3_OFFSET] = rng.bits();
}

/// Any bits, but not its enable.
fn channel_3_off(rng: &mut Rng, r: &mut Registers) {
    if rng.chance(1, 3) || model::channel_3(r) {
        r[CH3_MODE_STR] = rng.stale() & !CH3_ON;
    }
}

fn stride(rng: &mut Rng, row: i64) -> u32 {
    let stride = match rng.below(7) {
        0 => 0,
        1 => rng.between(0, row),
        2 | 3 => row,
        4 => row + rng.between(0, 9),
        5 => rng.between(0, 96),
        _ => rng.pick(&[16, 32, 64, 100, 128, 256, 65_535]),
    };
    stride.min(65_535) as u32
}

const XLSBS: u32 = 7 << 26;
const SI: u32 = 1 << 13;
const PI: u32 = 1 << 12;
const ST: u32 = 1 << 11;
pub const HOST: u32 = 2;
pub const X_NEGATIVE: u32 = 1 << 9;
pub const Y_NEGATIVE: u32 = 1 << 8;

fn set_source_mode(r: &mut Registers, code: u32) {
    r[BLT_MODE] = r[BLT_MODE] & !(3 << 6) | code << 6;
}

/// Which of X and Y may be negative.
fn directions(r: &Registers) -> u32 {
    match model::source_mode(r) {
        SourceMode::Unpacked if model::source_selected(r) => Y_NEGATIVE,
        SourceMode::BytePacked if model::source_selected(r) => 0,
        _ => X_NEGATIVE | Y_NEGATIVE,
    }
}

/// A mono source's width: mostly about a multiple of eight, counted from its first pixel or from the first bit of that pixel's byte.
fn mono_width(rng: &mut Rng, xlsbs: i64) -> i64 {
    let about = 8 * rng.between(1, 5) + rng.between(-1, 1);
    match rng.below(5) {
        0 | 1 => about,
        2 | 3 => about - xlsbs,
        _ => rng.between(1, 17),
    }
}

/// New values for a BLT that is to be drawn. `most` is about how many pixels it may have.
pub fn wish_blt(rng: &mut Rng, registers: &Registers, frame_len: i64, most: i64) -> Registers {
    let mut r = *registers;
    r[RASTER_MODE] = raster_mode(rng, Kind::Blt, frame_len);
    let depth = model::bytes_per_pixel(&r).unwrap_or(1);
    let (selected, source_mode) = match rng.below(20) {
        0..=4 => (false, 0),
        5..=7 => (false, rng.pick(&[1, 2])), // mono, and not used
        8..=12 => (true, 0),
        _ => (true, rng.pick(&[1, 2])),
    };
    let mono = selected && source_mode != 0;
    if source_mode != 0 {
        r[RASTER_MODE] |= rng.bits() & (SI | ST);
    }
    if selected && rng.chance(1, 6) {
        let code = if mono { rng.pick(&[0xCC, 0xCC, 0xF0, 0x5A]) } else { 0xCC }; // a plain copy
        r[RASTER_MODE] = r[RASTER_MODE] & !0xFF | code;
    }
    // throttle, checkpoint, destination required and the reserved bits have no effect
    r[BLT_MODE] = rng.idle(0xFFFF_FC3C) | source_mode << 6 | u32::from(selected);
    r[BLT_MODE] |= rng.bits() & directions(&r);
    r[SRC_OFFSET] = rng.idle(0xFF00_0000) | (rng.bits() & 0x00FF_FFFF);
    if mono {
        r[SRC_OFFSET] = r[SRC_OFFSET] & !XLSBS | (rng.bits() & XLSBS);
    }
    let mut width = match rng.below(6) {
        _ if mono => mono_width(rng, model::source_xlsbs(&r)),
        0 => 1,
        1 => rng.between(1, most),
        2 => rng.between(1, 40),
        _ => rng.between(1, 12),
    };
    let most = if mono { most.max(40) } else { most };
    width = width.clamp(1, (frame_len / depth).min(most)).min(4_095);
    let mut height = match rng.below(6) {
        0 => 1,
        1 => rng.between(1, most),
        _ => rng.between(1, 12),
    };
    height = height.clamp(1, (most / width).max(1)).min(4_095);
    let row = width * depth;
    // the bytes of a source row
    let source_row = if mono { (model::source_xlsbs(&r) + width + 7) / 8 } else { row };
    let to = stride(rng, row);
    let mut from = if rng.chance(1, if mono { 6 } else { 2 }) { to } else { stride(rng, source_row) };
    if to != 0 {
        height = height.min(1 + (frame_len - row) / i64::from(to));
    }
    if mono && source_mode == 2 {
        height = height.min(frame_len / source_row); // whatever the source stride
    } else if selected && from != 0 && (height - 1) * i64::from(from) + source_row > frame_len {
        from = if rng.chance(1, 2) { to } else { 0 };
    }
    r[STRIDE] = from << 16 | to;
    r[WID_HEIGHT] = rng.idle(0xF000_F000) | (width as u32) << 16 | height as u32;
    r[DST_OFFSET] = rng.bits() & 0xFC00_0000 | rng.idle(0x0300_0000);
    if rng.chance(3, 4) {
        (r[PAT_COLOR_0], r[SRC_COLOR_FG]) = rng.two_colours();
        r[PAT_COLOR_1] = rng.stale();
    }
    if mono && rng.chance(3, 4) {
        r[SRC_COLOR_BG] = rng.stale();
    }
    if rng.chance(3, 4) {
        r[PAT_DATA_0] = rng.stale();
        r[PAT_DATA_1] = rng.bits();
    }
    idle_registers(rng, &mut r);
    r
}

/// A BLT on which a wrong short way would show: mostly a plain code or one beside it, with rows about as long as blocks of bytes, and a
/// source that the BLT overtakes, or just does not.
fn wish_short_way(rng: &mut Rng, registers: &Registers, frame_len: i64, most: i64) -> Registers {
    let mut r = wish_blt(rng, registers, frame_len, most);
    let depth = model::bytes_per_pixel(&r).unwrap_or(1);
    let any_code = rng.bits() & 0xFF;
    let plain = rng.pick(&PLAIN);
    let (code, source) = match rng.below(22) {
        0..=4 => (0xCC, 1),
        5..=8 => (rng.pick(&[0x66, 0xEE, 0x88, any_code, any_code, any_code]), 1),
        9..=11 => (0xF0, rng.below(2)),
        12..=14 => (0x5A, rng.below(2)),
        15 => (0xCC, 0),
        16 => (plain ^ 1 << rng.below(8), rng.below(3)),
        17 | 18 => (any_code, rng.below(2)),
        _ => (rng.pick(&[0xCC, 0xF0, 0xF0, 0x5A, 0x5A, any_code]), 2),
    };
    let code = if model::pattern(&r) == Pattern::Colour && rng.chance(2, 5) { any_code } else { code };
    r[RASTER_MODE] = r[RASTER_MODE] & !(0xFF | SI | ST) | code;
    if rng.chance(1, 3) {
        r[RASTER_MODE] &= !0x300; // a solid pattern
        channel_3_off(rng, &mut r);
    }
    // none, with any mode, or a colour source, or a mono one
    let source_mode = match source {
        0 => rng.pick(&[0, 1, 2]),
        1 => 0,
        _ => rng.pick(&[1, 1, 2]),
    };
    if source_mode != 0 {
        r[RASTER_MODE] |= rng.bits() & (SI | ST);
        r[SRC_OFFSET] = r[SRC_OFFSET] & !XLSBS | (rng.bits() & XLSBS);
    }
    r[BLT_MODE] = r[BLT_MODE] & !(X_NEGATIVE | Y_NEGATIVE | 0xC3) | source_mode << 6 | u32::from(source > 0);
    r[BLT_MODE] |= rng.bits() & directions(&r);

    // rows
    let bytes = if rng.chance(1, 2) { rng.between(66, 140) } else { rng.pick(&ROW_LENGTHS) };
    let width = ((bytes + depth - 1) / depth).min(frame_len / depth).max(1);
    let row = width * depth;
    let source_row = if source == 2 { (model::source_xlsbs(&r) + width + 7) / 8 } else { row };
    let to = match rng.below(6) {
        0 => rng.between(0, row),
        1 | 2 => row,
        _ => row + rng.between(1, 12),
    };
    let from = if rng.chance(5, 6) { to } else { rng.between(0, source_row + 12) };
    let height = rng.pick(&[1, 1, 2, 3]).min(1 + (frame_len - row) / to.max(from).max(1)).max(1);
    r[STRIDE] = (from as u32) << 16 | to as u32;
    r[WID_HEIGHT] = r[WID_HEIGHT] & 0xF000_F000 | (width as u32) << 16 | height as u32;

    // places; where they do not fit, anywhere
    let apart = if source == 2 { font_place(rng, row, source_row) } else { source_place(rng, row, depth, to) };
    let placed = source > 0 && settle_both(rng, &mut r, frame_len, apart);
    if !placed && settle(rng, Kind::Blt, &mut r, frame_len, false) && source > 0 {
        settle(rng, Kind::Blt, &mut r, frame_len, true);
    }
    r
}

/// How many bytes a font's row lies behind the row that it draws: beside it, inside it, or across an end of it.
fn font_place(rng: &mut Rng, row: i64, source_row: i64) -> i64 {
    let part = rng.between(1, (source_row - 1).max(1));
    match rng.below(6) {
        0 => -source_row,
        1 => row,
        2 => -part,
        3 => row - part,
        _ => rng.between(0, (row - source_row).max(0)),
    }
}

/// How many bytes a colour source lies behind the destination, either way: part of a row, or some rows, or both.
fn source_place(rng: &mut Rng, row: i64, depth: i64, stride: i64) -> i64 {
    if rng.chance(1, 6) {
        // rows that touch, or share a byte or a pixel
        let step = row - rng.pick(&[0, 1, 1, depth]);
        return rng.pick(&[-step, step]);
    }
    let mut step = match rng.below(9) {
        0 => rng.between(1, depth),
        1 => rng.between(1, row),
        2 | 3 => 0,
        _ => {
            let (low, high) = rng.pick(&[(1, 15), (16, 31), (32, 63), (64, row), (64, row)]);
            if low < row { rng.between(low, high.min(row)) } else { rng.between(1, row) }
        }
    };
    if rng.chance(1, 2) {
        step -= step % depth;
    }
    let rows = if step == 0 || rng.chance(1, 5) { rng.pick(&[-2, -1, 1, 2]) } else { 0 };
    rng.pick(&[-step, step]) + rows * stride
}

/// BASE_OFFSET's bits that have no effect on this command: channel 3's base and the reserved bits, and the source's base but for a source in
/// frame memory. No other base fits in so small a memory.
fn idle_bases(rng: &mut Rng, kind: Kind, r: &mut Registers) {
    let from_frame = kind == Kind::Blt && model::source_selected(r);
    let bits = if from_frame { 12 } else { 22 };
    let all = (1 << bits) - 1;
    r[BASE_OFFSET] = match rng.below(8) {
        0 => all,
        1 => 1 << rng.below(bits),
        2 | 3 => rng.bits() & all,
        _ => 0,
    };
}

/// Registers that few BLTs read, or of which some bits are judged.
fn idle_registers(rng: &mut Rng, r: &mut Registers) {
    for register in [SRC_COLOR_BG, CH3_OFFSET, CH3_WIDHI] {
        if rng.chance(1, 3) {
            r[register] = rng.stale();
        }
    }
    if rng.chance(1, 7) {
        channel_3_pattern(rng, r);
    } else {
        channel_3_off(rng, r);
    }
    r[BASE_OFFSET] = 0;
}

/// New values for a vector that is to be drawn.
pub fn wish_vector(rng: &mut Rng, registers: &Registers, frame_len: i64, most: i64) -> Registers {
    let mut r = *registers;
    r[RASTER_MODE] = raster_mode(rng, Kind::Vector, frame_len);
    let depth = model::bytes_per_pixel(&r).unwrap_or(1);
    r[VECTOR_MODE] = rng.idle(0xFFFF_FFF8) | (rng.bits() & 7);
    let mut length = match rng.below(5) {
        0 => 1,
        1 => rng.between(1, most),
        _ => rng.between(1, 30),
    }
    .min(4_095);
    let (axial, diagonal, initial) = if rng.chance(1, 2) {
        // a driver's line: 2 dy, 2 (dy - dx), 2 dy - dx, one less at times
        let major = rng.between(1, 60);
        let minor = rng.between(0, major);
        (2 * minor, 2 * (minor - major), 2 * minor - major - rng.between(0, 1))
    } else {
        let axial = match rng.below(4) {
            0 => 0,
            1 => 32_767,
            2 => rng.between(0, 32_767),
            _ => rng.between(0, 20),
        };
        let diagonal = match rng.below(4) {
            0 => 0,
            1 => -32_768,
            2 => rng.between(-32_768, 0),
            _ => rng.between(-20, 0),
        };
        let initial = match rng.below(6) {
            0 => 0,
            1 => -1,
            2 => 32_767,
            3 => -32_768,
            4 => rng.between(-32_768, 32_767),
            _ => rng.between(-20, 20),
        };
        (axial, diagonal, initial)
    };
    r[VEC_ERR] = (axial as u32 & 0xFFFF) << 16 | diagonal as u32 & 0xFFFF;
    let reach = rng.between(1, 20);
    r[STRIDE] = (rng.stale() & 0xFFFF) << 16 | stride(rng, reach * depth);
    r[DST_OFFSET] = rng.bits() & 0xFC00_0000 | rng.idle(0x0300_0000);
    let top = rng.idle(0xF000_0000);
    loop {
        r[VEC_LEN] = top | (length as u32) << 16 | initial as u32 & 0xFFFF;
        let (low, high) = span(Kind::Vector, &r, false);
        if length == 1 || high - low < frame_len {
            break;
        }
        length = (length * 2 / 3).max(1);
    }
    if rng.chance(3, 4) {
        (r[PAT_COLOR_0], r[SRC_COLOR_FG]) = rng.two_colours();
    }
    for register in [PAT_COLOR_1, PAT_DATA_0, PAT_DATA_1] {
        if rng.chance(1, 3) {
            r[register] = rng.stale();
        }
    }
    channel_3_off(rng, &mut r);
    r[BASE_OFFSET] = 0;
    r
}

/// New values for a BLT with host source that is to be drawn, but for its place: rows that end about a word's end, or of any length.
pub fn wish_picture(rng: &mut Rng, registers: &Registers, frame_len: i64, most: i64) -> Registers {
    let mut r = wish_blt(rng, registers, frame_len, most);
    let depth = model::bytes_per_pixel(&r).unwrap_or(1);
    let source_mode = rng.pick(&[0, 0, 1, 1, 2]);
    r[BLT_MODE] = r[BLT_MODE] & !(X_NEGATIVE | Y_NEGATIVE | 0xC3) | source_mode << 6 | HOST;
    r[BLT_MODE] |= rng.bits() & (X_NEGATIVE | Y_NEGATIVE);
    r[RASTER_MODE] &= !(SI | ST);
    if source_mode != 0 {
        r[RASTER_MODE] |= rng.bits() & (SI | ST);
    }
    if rng.chance(1, 2) {
        r[RASTER_MODE] = r[RASTER_MODE] & !0xFF | rng.pick(&[0xCC, 0xCC, 0xF0, 0xF0, 0x5A, 0x66]);
    }
    if rng.chance(1, 2) {
        r[SRC_COLOR_BG] = rng.stale();
    }
    // the offset's two low bits and XLSBS; all other bits have no effect
    r[SRC_OFFSET] = rng.bits();
    let one_pixel = source_mode == 0 && depth == 2 && rng.chance(1, 8);
    match (source_mode, depth) {
        (0, 2) => r[SRC_OFFSET] = r[SRC_OFFSET] & !3 | if one_pixel { 1 } else { rng.pick(&[0, 2]) },
        (0, 4) => r[SRC_OFFSET] &= !3,
        _ => {}
    }

    // rows
    let first_bit = 8 * model::first_byte(&r) + model::source_xlsbs(&r);
    let mut width = match rng.below(5) {
        _ if one_pixel => 1,
        0 => rng.pick(&ROW_LENGTHS) / depth,
        1 | 2 if source_mode != 0 => 32 * rng.between(1, 3) - first_bit + rng.between(-1, 1),
        3 if source_mode != 0 => mono_width(rng, model::source_xlsbs(&r)),
        1 => rng.between(1, 20),
        2 => rng.between(1, most),
        3 => rng.between(17, 40),
        _ => rng.between(1, 9),
    };
    let most = if source_mode == 0 { most } else { most.max(100) };
    width = width.clamp(1, (frame_len / depth).min(most)).min(4_095);
    let row = width * depth;
    let to = stride(rng, row);
    let mut height = if rng.chance(1, 4) { 1 } else { rng.between(1, 9) }.clamp(1, (most / width).max(1));
    if to != 0 {
        height = height.min(1 + (frame_len - row) / i64::from(to));
    }
    r[STRIDE] = rng.stale() << 16 | to;
    r[WID_HEIGHT] = r[WID_HEIGHT] & 0xF000_F000 | (width as u32) << 16 | height as u32;
    r
}

/// Registers for a command that judging accepts.
fn wish(rng: &mut Rng, kind: Kind, registers: &Registers, frame_len: u32, most: i64) -> Registers {
    let len = i64::from(frame_len);
    if kind == Kind::Blt && rng.chance(1, 2) {
        let mut r = wish_short_way(rng, registers, len, most);
        idle_bases(rng, kind, &mut r);
        if model::judge(kind, &r, frame_len) == 0 {
            return r;
        }
    }
    for attempt in 0.. {
        let mut r = match kind {
            Kind::Blt => wish_blt(rng, registers, len, most),
            Kind::Vector => wish_vector(rng, registers, len, most),
        };
        if attempt < 4 && rng.chance(1, 3) {
            // what earlier commands left, as far as it can be drawn
            let kept = rng.bits() & rng.bits();
            for i in [RASTER_MODE, SRC_OFFSET, STRIDE, WID_HEIGHT] {
                if kept >> i & 1 == 1 {
                    r[i] = registers[i];
                }
            }
            if model::bytes_per_pixel(&r).is_none() || !(1..=2 * most).contains(&model::pixel_count(kind, &r)) {
                continue;
            }
            if model::channel_3(&r) {
                r[CH3_MODE_STR] = r[CH3_MODE_STR] & !CH3_FORMAT | r[RASTER_MODE] >> 28 << 24;
            }
        }
        let keep_source = r[SRC_OFFSET] == registers[SRC_OFFSET];
        let settled = settle(rng, kind, &mut r, len, false)
            && (kind == Kind::Vector || !model::source_selected(&r) || keep_source || settle(rng, kind, &mut r, len, true));
        idle_bases(rng, kind, &mut r);
        if settled && model::judge(kind, &r, frame_len) == 0 {
            return r;
        }
    }
    *registers
}

/// Makes the source of a good BLT mono, half the time, with directions that 24 leaves it, X often negative where it may be, and the
/// destination in the frame still.
fn choose_source(rng: &mut Rng, r: &mut Registers, frame_len: u32) {
    if rng.chance(1, 2) {
        set_source_mode(r, rng.pick(&[1, 2]));
        r[RASTER_MODE] |= rng.bits() & (SI | ST);
        r[SRC_OFFSET] = r[SRC_OFFSET] & !XLSBS | (rng.bits() & XLSBS);
    }
    let refused = (X_NEGATIVE | Y_NEGATIVE) & !directions(r);
    let mode = r[BLT_MODE] & !refused | rng.bits() & directions(r) & X_NEGATIVE;
    if mode != r[BLT_MODE] {
        r[BLT_MODE] = mode;
        settle(rng, Kind::Blt, r, i64::from(frame_len), false);
    }
}

/// Channel 3's pattern with one fault.
fn damage_channel_3(rng: &mut Rng, r: &mut Registers) {
    channel_3_pattern(rng, r);
    match rng.below(10) {
        0 => r[CH3_MODE_STR] &= !CH3_PATTERN,
        1 => r[CH3_MODE_STR] |= CH3_TO_SOURCE,
        2..=4 => {
            let format = r[RASTER_MODE] >> 28;
            let near = if model::bytes_per_pixel(r) == Some(2) { rng.pick(&[4, 5, 6]) } else { rng.pick(&[0, 4, 5, 6, 8]) };
            let mut other = if rng.chance(3, 4) { near } else { rng.below(16) as u32 };
            if other == format {
                other ^= rng.pick(&[1, 2, 3]);
            }
            r[CH3_MODE_STR] = r[CH3_MODE_STR] & !CH3_FORMAT | other << 24;
        }
        _ => r[CH3_MODE_STR] |= 1 << rng.pick(&[23, 22, 20, 19, 18]), // RO, BGR, PL, PE, HS
    }
}

/// A base that is not 0: one bit, or any.
fn some_base(rng: &mut Rng) -> u32 {
    if rng.chance(2, 3) {
        1 << rng.below(10)
    } else {
        rng.between(1, 1_023) as u32
    }
}

/// Changes one field so that judging refuses by this number (or by a lower one, where that cannot be had).
fn damage(rng: &mut Rng, kind: Kind, r: &mut Registers, frame_len: u32, number: u32) {
    match number {
        23 => {
            if rng.chance(2, 3) {
                let code = rng.pick(&[1, 2, 3, 7, 9, 10, 11, 12, 13, 14, 15]);
                r[RASTER_MODE] = r[RASTER_MODE] & 0x0FFF_FFFF | code << 28;
            } else {
                r[RASTER_MODE] |= rng.pick(&[1, 2, 3]) << 22;
            }
        }
        24 => match rng.below(if kind == Kind::Blt { 18 } else { 9 }) {
            bit @ 0..=2 => {
                let bit = [SI, ST, PI][bit as usize];
                if kind == Kind::Blt && bit != PI {
                    // on a colour source, used or not
                    r[RASTER_MODE] &= !(SI | ST);
                    set_source_mode(r, 0);
                }
                r[RASTER_MODE] |= bit;
            }
            3 if kind == Kind::Blt => damage_channel_3(rng, r),
            3 => channel_3_pattern(rng, r),
            4 | 5 => {
                let mode = if kind == Kind::Blt { 3 } else { rng.pick(&[1, 2, 3]) };
                r[RASTER_MODE] = r[RASTER_MODE] & !0x300 | mode << 8;
                if kind == Kind::Blt && rng.chance(1, 2) {
                    channel_3_pattern(rng, r);
                }
            }
            6..=8 if kind == Kind::Vector => r[CH3_MODE_STR] = rng.stale() | CH3_ON,
            12..=16 => damage_channel_3(rng, r),
            17 => {
                r[RASTER_MODE] |= PI;
                if rng.chance(1, 2) {
                    r[RASTER_MODE] = r[RASTER_MODE] & !0x300 | 2 << 8;
                    r[CH3_MODE_STR] &= !CH3_ON;
                } else {
                    channel_3_pattern(rng, r);
                }
            }
            6 | 7 => set_source_mode(r, 3),
            8 => r[BLT_MODE] |= 3,
            code @ 9..=10 => {
                // mono from frame memory with X negative
                set_source_mode(r, code as u32 - 8);
                r[BLT_MODE] = r[BLT_MODE] & !(X_NEGATIVE | Y_NEGATIVE | 3) | X_NEGATIVE | 1;
                r[BLT_MODE] |= if code == 9 { rng.bits() & Y_NEGATIVE } else { 0 };
            }
            _ => {
                // byte-packed from frame memory with Y negative
                set_source_mode(r, 2);
                r[BLT_MODE] = r[BLT_MODE] & !(X_NEGATIVE | Y_NEGATIVE | 3) | Y_NEGATIVE | 1;
            }
        },
        25 => {
            if kind == Kind::Vector || rng.chance(1, 2) {
                r[WID_HEIGHT] &= !0x0FFF_0000;
            } else {
                r[WID_HEIGHT] &= !0x0000_0FFF;
            }
        }
        26 => {
            let axial = if rng.chance(1, 2) { rng.pick(&[0xFFFF, 0x8000, 0xFF00]) } else { 0 };
            let diagonal = if axial == 0 { rng.pick(&[1, 0x7FFF, 0x0100]) } else { 0 };
            r[VEC_ERR] = axial << 16 | diagonal;
        }
        _ => {
            let source = number == 28;
            let whole = model::judge(kind, r, frame_len) == 0;
            if source || !rng.chance(1, 3) {
                r[BASE_OFFSET] &= 0xFFF; // else the source's base may be too far as well
            }
            if number == 27 && whole && rng.chance(1, 4) {
                r[BASE_OFFSET] |= some_base(rng) << 22;
                return;
            }
            if source {
                let good = model::judge(kind, r, frame_len) == 0;
                r[BLT_MODE] |= 1;
                if good {
                    choose_source(rng, r, frame_len);
                }
            }
            if source && whole && rng.chance(1, 3) && settle(rng, kind, r, i64::from(frame_len), true) {
                r[BASE_OFFSET] |= some_base(rng) << 12;
                return;
            }
            if number == 27 && kind == Kind::Blt {
                r[BLT_MODE] |= rng.bits() & directions(r) & X_NEGATIVE;
            }
            // the last byte of a BLT's first pixel at byte 0, if X is negative
            let negative = kind == Kind::Blt && model::x_negative(r);
            let last_byte = if negative { model::bytes_per_pixel(r).unwrap_or(1) - 1 } else { 0 };
            let register = if source { SRC_OFFSET } else { DST_OFFSET };
            set_offset(r, register, 0);
            let (low, high) = span(kind, r, source);
            let offset = match rng.below(8) {
                0 => 0x00FF_FFFF,
                1 => i64::from(frame_len) + rng.between(0, 40),
                2 | 3 if last_byte > 0 => rng.between(0, last_byte - 1),
                2..=5 if low < 0 => -low - 1, // one byte before the frame
                _ => i64::from(frame_len) - high, // one byte behind it
            };
            set_offset(r, register, offset);
        }
    }
}

/// A command's words: the wished values where the registers differ, and elsewhere as it comes, stale words where enables are clear.
pub fn emit(rng: &mut Rng, kind: Kind, registers: &Registers, wished: &Registers, draw: bool) -> Vec<u32> {
    let list = model::words_of(kind);
    let last = list.len() - 1;
    let mut header: u32 = if kind == Kind::Vector { 1 << 29 } else { 0 };
    if rng.chance(1, 4) {
        header |= 1 << 28;
    }
    let all = rng.chance(1, 4);
    let mut words = vec![0];
    for (i, register) in list.iter().enumerate() {
        let enabled = if i == last { draw } else { all || wished[*register] != registers[*register] || rng.chance(1, 3) };
        if enabled {
            header |= 1 << i;
            words.push(wished[*register]);
        } else {
            words.push(rng.stale());
        }
    }
    words[0] = header;
    words
}

pub fn load(registers: &mut Registers, kind: Kind, words: &[u32]) {
    for (i, register) in model::words_of(kind).iter().enumerate() {
        if words[0] >> i & 1 == 1 {
            registers[*register] = words[i + 1];
        }
    }
}

// ---- Table loads ----------------------------------------------------------------------------------------------------------------

const TABLE_LOAD: u32 = 2 << 29;
const DATA_FOR_THE_TABLE: u32 = 3 << 29;

/// A table load of random words at this index, or going on where the last one ended; the index register follows.
pub fn table_load(rng: &mut Rng, registers: &mut Registers, index: Option<u32>, count: u32) -> Vec<u32> {
    let mut header = TABLE_LOAD | u32::from(index.is_some());
    if rng.chance(3, 4) {
        header |= 2; // the count word's enable, without effect
    }
    if rng.chance(1, 5) {
        header |= 1 << 28;
    }
    let index_word = match index {
        Some(index) => index | rng.idle(0xFFFF_FE00),
        None => rng.stale(),
    };
    if index.is_some() {
        registers[LUT_INDEX] = index_word;
    }
    let last = registers[LUT_INDEX];
    registers[LUT_INDEX] = last & !0x1FF | (last + count) & 0x1FF;
    let mut words = vec![header, index_word, DATA_FOR_THE_TABLE | count];
    words.extend((0..count).map(|_| rng.bits()));
    words
}

/// One or two table loads, mostly into the tile.
fn table_loads(rng: &mut Rng, registers: &mut Registers, room: u32) -> Vec<Vec<u32>> {
    let tile = 0x100;
    // of a tile at 8, 16 or 32 bits
    let whole = rng.pick(&[16, 32, 64, 64]);
    // words up to 511, and from 0 into the tile
    let (before, behind) = (rng.between(1, 12) as u32, 256 + rng.between(1, 64) as u32);
    let choice = match rng.below(40) {
        long @ 0..=4 if room > 700 => long,
        _ => rng.between(5, 39) as u64,
    };
    match choice {
        0 | 1 => vec![table_load(rng, registers, Some(512 - before), before + behind)],
        2 => {
            let past = rng.between(1, 3) as u32;
            let first = table_load(rng, registers, Some(512 - before), before + past);
            vec![first, table_load(rng, registers, None, behind - past)]
        }
        3 => {
            let first = table_load(rng, registers, Some(512 - before), before);
            vec![first, table_load(rng, registers, None, behind)]
        }
        4 => {
            let index = rng.below(512) as u32;
            vec![table_load(rng, registers, Some(index), 512)]
        }
        5..=13 => vec![table_load(rng, registers, Some(tile), whole)],
        14..=19 => {
            let part = rng.between(1, i64::from(whole) - 1) as u32;
            let first = table_load(rng, registers, Some(tile), part);
            vec![first, table_load(rng, registers, None, whole - part)]
        }
        20 | 21 => vec![table_load(rng, registers, Some(tile - before), before + whole)],
        22..=29 => {
            let (index, count) = (tile + rng.below(64) as u32, rng.between(1, 8) as u32);
            vec![table_load(rng, registers, Some(index), count)]
        }
        30..=33 => {
            let count = rng.between(1, 8) as u32;
            vec![table_load(rng, registers, None, count)]
        }
        34 | 35 => {
            let count = rng.pick(&[1, 2, 2, 3]);
            vec![table_load(rng, registers, Some(511), count)]
        }
        36 => vec![table_load(rng, registers, Some(512 - before), before)],
        _ => {
            let (index, count) = (rng.below(512) as u32, rng.between(1, 20) as u32);
            vec![table_load(rng, registers, Some(index), count)]
        }
    }
}

/// Makes the count word such that 29 covers it.
fn damage_count(rng: &mut Rng, word: &mut u32) {
    match rng.below(8) {
        0 | 1 => *word = *word & 0x1FFF_FFFF | rng.pick(&[0, 1, 2, 2, 4, 5, 6, 7]) << 29,
        2 | 3 => *word |= 1 << rng.between(16, 28),
        4 => *word &= 0xFFFF_0000,
        5 => *word = *word & 0xFFFF_0000 | 513,
        _ => {
            let any = 513 + rng.below(0x1_0000 - 513) as u32;
            *word = *word & 0xFFFF_0000 | rng.pick(&[514, 515, 576, 767, 1_021, 1_022, 1_024, 0x8000 | *word & 0x1FF, 0xFFFF, any]);
        }
    }
}

/// A table load into the tile that is to be refused by 21 or 29, or, with W at a wrong place, by 22.
fn bad_table_load(rng: &mut Rng, registers: &Registers, number: u32) -> Vec<u32> {
    let (index, count) = (0x100 + rng.below(60) as u32, rng.between(1, 6) as u32);
    let mut words = table_load(rng, &mut registers.clone(), Some(index), count);
    match number {
        21 => {
            words[0] |= 1 << rng.between(2, 27);
            if rng.chance(1, 3) {
                damage_count(rng, &mut words[2]);
            }
        }
        29 => {
            damage_count(rng, &mut words[2]);
            if rng.chance(1, 8) {
                damage_count(rng, &mut words[2]);
            }
        }
        _ => {}
    }
    words
}

// ---- Pictures -------------------------------------------------------------------------------------------------------------------

const DATA: u32 = 3 << 29;

/// A data command of random words.
pub fn data_command(rng: &mut Rng, count: u32) -> Vec<u32> {
    let mut header = DATA | u32::from(rng.chance(3, 4)); // the count word's enable, without effect
    if rng.chance(1, 6) {
        header |= 1 << 28;
    }
    let mut words = vec![header, count];
    words.extend((0..count).map(|_| rng.bits()));
    words
}

/// How many words each data command has for this BLT: all in one, one word each, a row each, or as it comes. The last may have more than are
/// wanted.
pub fn split(rng: &mut Rng, r: &Registers) -> Vec<u32> {
    let total = 1 + model::word_of_pixel(r, model::pixel_count(Kind::Blt, r) - 1) as u32;
    let row = (total / model::height(r) as u32).max(1);
    let step = match rng.below(8) {
        0 | 1 => total,
        2 if total <= 12 => 1,
        3 | 4 if total <= 12 * row => row,
        _ => 0,
    };
    let (mut counts, mut left) = (Vec::new(), total);
    while left > 0 {
        let any = if counts.len() < 4 { rng.between(1, i64::from(left)) as u32 } else { left };
        let count = if step > 0 { step.min(left) } else { any };
        counts.push(count);
        left -= count;
    }
    if rng.chance(1, 4) {
        let more = rng.between(1, 20) as u32;
        *counts.last_mut().unwrap_or(&mut left) += rng.pick(&[1, 1, 2, more]);
    }
    counts
}

/// A BLT with host source and its data commands, or nothing, if there is no room for them; the registers follow.
fn picture(rng: &mut Rng, registers: &mut Registers, frame_len: u32, most: i64, room: u32) -> Vec<Vec<u32>> {
    for attempt in 0..6 {
        let len = i64::from(frame_len);
        let mut r = wish_picture(rng, registers, len, (most >> attempt).max(4));
        let settled = settle(rng, Kind::Blt, &mut r, len, false);
        idle_bases(rng, Kind::Blt, &mut r);
        if !settled || model::judge(Kind::Blt, &r, frame_len) != 0 {
            continue;
        }
        let counts = split(rng, &r);
        if 17 + counts.iter().map(|count| 2 + count).sum::<u32>() > room {
            continue;
        }
        let words = emit(rng, Kind::Blt, registers, &r, true);
        load(registers, Kind::Blt, &words);
        let mut list = vec![words];
        list.extend(counts.into_iter().map(|count| data_command(rng, count)));
        return list;
    }
    Vec::new()
}

/// Makes the count word of a data command such that 32 covers it.
fn damage_data_count(rng: &mut Rng, word: &mut u32, ring_len: u32) {
    match rng.below(8) {
        0 | 1 => *word = *word & 0x1FFF_FFFF | rng.pick(&[1, 2, 3, 3, 4, 5, 6, 7]) << 29,
        2 | 3 => *word |= 1 << rng.between(16, 28),
        4 => *word &= 0xFFFF_0000,
        5 | 6 => *word = *word & 0xFFFF_0000 | (ring_len - 2),
        _ => {
            let any = rng.between(i64::from(ring_len), 0xFFFF) as u32;
            *word = *word & 0xFFFF_0000 | rng.pick(&[ring_len - 1, ring_len, ring_len + 1, 0xFFFF, 0x8000 | *word & 0xFF, any]);
        }
    }
}

/// A command that is no data command.
fn other_command(rng: &mut Rng, registers: &Registers, frame_len: u32) -> Vec<u32> {
    match rng.below(10) {
        0 => {
            let number = rng.pick(&[22, 29]);
            bad_table_load(rng, registers, number)
        }
        1 | 2 => table_load(rng, &mut registers.clone(), Some(0x100), 3),
        3 => {
            let number = rng.between(23, 28) as u32;
            bad(rng, registers, frame_len, number)
        }
        4 => picture(rng, &mut registers.clone(), frame_len, 20, u32::MAX).into_iter().next().unwrap_or_default(),
        _ => {
            let kind = some_kind(rng);
            let wished = wish(rng, kind, registers, frame_len, 20);
            let draw = rng.chance(1, 2);
            emit(rng, kind, registers, &wished, draw)
        }
    }
}

/// A picture at this ring word that is stopped on its way or just breaks off, or one with data that nobody wants before or behind it.
fn bad_picture(rng: &mut Rng, registers: &Registers, frame_len: u32, ring_len: u32, at: u32) -> Vec<Vec<u32>> {
    let mut after = *registers;
    let mut list = picture(rng, &mut after, frame_len, 60, 300);
    let mut data = {
        let count = rng.between(1, 6) as u32;
        data_command(rng, count)
    };
    let choice = rng.below(16);
    if choice < 3 || list.is_empty() {
        // 31
        match rng.below(4) {
            0 => damage_data_count(rng, &mut data[1], ring_len),
            1 => data[0] |= 1 << 31,
            _ => {}
        }
        if choice < 2 { list.push(data) } else { list = vec![data] }
        return list;
    }
    if list.len() == 2 && list[1].len() > 3 && rng.chance(2, 3) {
        // a first part of it
        let count = rng.between(1, list[1].len() as i64 - 3) as u32;
        list[1].truncate(2 + count as usize);
        list[1][1] = count;
    } else {
        let kept = rng.between(1, list.len() as i64 - 1);
        list.truncate(kept as usize);
    }
    let place = at + list.iter().map(|words| words.len() as u32).sum::<u32>();
    match choice {
        3..=7 => {
            let mut words = other_command(rng, &after, frame_len); // 30
            if words.is_empty() {
                return list;
            }
            if rng.chance(1, 8) {
                words[0] |= 1 << 31;
            }
            list.push(words);
        }
        8 | 9 => {
            let mut words = if rng.chance(1, 2) { data } else { other_command(rng, &after, frame_len) };
            if let Some(header) = words.first_mut() {
                let lowest = match *header >> 29 & 3 {
                    0 => 16,
                    1 => 13,
                    2 => 2,
                    _ => 1,
                };
                *header |= 1 << rng.between(lowest, 27);
                list.push(words);
            }
        }
        10..=12 => {
            damage_data_count(rng, &mut data[1], ring_len);
            if rng.chance(1, 8) {
                damage_data_count(rng, &mut data[1], ring_len);
            }
            if rng.chance(1, 5) {
                data[0] |= 1 << 31;
            }
            list.push(data);
        }
        13 | 14 => {
            // W, and up to the ring's end and one word further, or as long as can be
            let left = ring_len.saturating_sub(place);
            let count = if left > 2 && rng.chance(1, 2) { left - 1 } else { ring_len - 3 };
            data[0] |= 1 << 31;
            data[1] = count;
            list.push(data);
        }
        _ => {}
    }
    list
}

/// A BLT with host source that judging refuses, mostly by 24.
fn refused_picture(rng: &mut Rng, registers: &Registers, frame_len: u32) -> Vec<u32> {
    let mut r = wish_picture(rng, registers, i64::from(frame_len), 40);
    settle(rng, Kind::Blt, &mut r, i64::from(frame_len), false);
    idle_bases(rng, Kind::Blt, &mut r);
    let choice = rng.below(12);
    if choice < 8 {
        // a colour source
        r[RASTER_MODE] &= !(SI | ST);
        set_source_mode(&mut r, 0);
    }
    match choice {
        0..=5 => {
            // some pixel straddles two words, or there is none
            let format = rng.pick(&[4, 5, 6, 6, 8, 8]);
            r[RASTER_MODE] = r[RASTER_MODE] & 0x0FFF_FFFF | format << 28;
            r[CH3_MODE_STR] &= !CH3_ON;
            let any = rng.between(1, 3) as u32;
            let first = if format < 8 { rng.pick(&[1, 3]) } else { any };
            r[SRC_OFFSET] = r[SRC_OFFSET] & !3 | first;
            let width = rng.pick(&[0, 1, 1, 2, 2, 2, 3]);
            let height = rng.pick(&[0, 1, 1, 1, 2, 2]);
            r[WID_HEIGHT] = r[WID_HEIGHT] & 0xF000_F000 | width << 16 | height;
        }
        6 => r[RASTER_MODE] |= SI,
        7 => r[RASTER_MODE] |= ST,
        8 => set_source_mode(&mut r, 3),
        9 => r[BLT_MODE] |= 3,
        _ => damage(rng, Kind::Blt, &mut r, frame_len, 27),
    }
    emit(rng, Kind::Blt, registers, &r, true)
}

// ---- Lists of commands ----------------------------------------------------------------------------------------------------------

pub fn some_kind(rng: &mut Rng) -> Kind {
    if rng.chance(3, 5) {
        Kind::Blt
    } else {
        Kind::Vector
    }
}

/// Some good commands, the last of which draws; the registers follow. `room` is about how many words there are for them.
fn good(rng: &mut Rng, registers: &mut Registers, frame_len: u32, most: i64, room: u32) -> Vec<Vec<u32>> {
    let kind = some_kind(rng);
    let mut list = Vec::new();
    if room > 80 && rng.chance(1, 7) {
        list.extend(table_loads(rng, registers, room));
    }
    if rng.chance(1, 12) {
        // a load of anything, bad values too: judged only by a command that draws
        let words_kind = some_kind(rng);
        let mut junk = *registers;
        for register in model::words_of(words_kind) {
            if rng.chance(1, 3) {
                junk[*register] = rng.stale();
            }
        }
        let words = emit(rng, words_kind, registers, &junk, false);
        load(registers, words_kind, &words);
        list.push(words);
    }
    if kind == Kind::Blt && room > 80 && rng.chance(1, 5) {
        let picture = picture(rng, registers, frame_len, most, room);
        if !picture.is_empty() {
            list.extend(picture);
            return list;
        }
    }
    let wished = wish(rng, kind, registers, frame_len, most);
    if rng.chance(1, 6) {
        // part of it by a load, the rest by the draw
        let words_kind = some_kind(rng);
        let mut part = *registers;
        for register in model::words_of(words_kind) {
            if rng.chance(1, 2) {
                part[*register] = wished[*register];
            }
        }
        let words = emit(rng, words_kind, registers, &part, false);
        load(registers, words_kind, &words);
        list.push(words);
    }
    let words = emit(rng, kind, registers, &wished, true);
    load(registers, kind, &words);
    list.push(words);
    list
}

/// A command that is to be refused by this number, 21 or 23 to 29 (22 hangs on its place in the ring).
fn bad(rng: &mut Rng, registers: &Registers, frame_len: u32, number: u32) -> Vec<u32> {
    if number == 29 || number == 21 && rng.chance(1, 2) {
        return bad_table_load(rng, registers, number);
    }
    let kind = match number {
        26 => Kind::Vector,
        28 => Kind::Blt,
        _ => some_kind(rng),
    };
    let mut wished = wish(rng, kind, registers, frame_len, 60);
    if number >= 23 {
        damage(rng, kind, &mut wished, frame_len, number);
        if rng.chance(1, 5) {
            // a second fault: the lowest wins
            let second = rng.between(i64::from(number), 28) as u32;
            let fits = match second {
                25 => false, // leaves no pixels to place
                26 => kind == Kind::Vector,
                27 => model::pixel_count(kind, &wished) > 0,
                28 => kind == Kind::Blt && model::pixel_count(kind, &wished) > 0,
                _ => true,
            };
            if fits {
                damage(rng, kind, &mut wished, frame_len, second);
            }
        }
    }
    let draw = number == 21 && rng.chance(1, 2) || number != 21;
    let mut words = emit(rng, kind, registers, &wished, draw);
    if number == 21 {
        let lowest = if kind == Kind::Blt { 16 } else { 13 };
        match rng.below(6) {
            0..=2 => {
                // a data command's header
                words.truncate(3);
                words[0] = DATA | 1 << rng.between(1, 27);
            }
            3 => words[0] |= 1 << lowest,
            4 => words[0] |= 1 << 27,
            _ => words[0] |= 1 << rng.between(lowest, 27),
        }
    }
    words
}

fn some_refusal(rng: &mut Rng) -> u32 {
    rng.pick(&[21, 21, 23, 24, 24, 24, 24, 24, 24, 24, 25, 26, 27, 27, 27, 28, 28, 28, 28, 29, 29, 29])
}

fn some_frame_length(rng: &mut Rng) -> u32 {
    match rng.below(8) {
        0 => rng.between(1, 8) as u32,
        1 => 32_768,
        2 => rng.between(1, 32_768) as u32,
        3 => rng.between(9, 64) as u32,
        _ => rng.between(64, 2_000) as u32,
    }
}

/// Fills with random mono patterns over the whole frame, or over the last bytes of a long one, so that there is something to copy and a
/// font to draw from: one in bytes, and with `more` another in words over it, up to the last byte, and a few pixels by any code.
fn ground(rng: &mut Rng, registers: &mut Registers, frame_len: u32, most: u32, more: bool) -> Vec<u32> {
    let bytes = if frame_len <= most { frame_len } else { most / 2 };
    let mut list = Vec::new();
    for (depth, raster_mode) in [(1, 0x0000_01F0), (4, 0x8000_015A)] {
        if depth == 4 && !(more && bytes >= 4) {
            continue;
        }
        let mut r = *registers;
        r[RASTER_MODE] = raster_mode;
        let pixels = bytes / depth;
        let width = (pixels as f64).sqrt() as u32;
        let height = pixels / width;
        let first = if depth == 4 { frame_len - depth * width * height } else { frame_len - bytes };
        r[DST_OFFSET] = rng.bits() & 0xFC00_0000 | first;
        r[STRIDE] = depth * width;
        r[WID_HEIGHT] = width << 16 | height;
        r[PAT_COLOR_0] = rng.bits();
        r[PAT_COLOR_1] = rng.bits();
        r[PAT_DATA_0] = rng.bits();
        r[PAT_DATA_1] = rng.bits();
        r[BLT_MODE] = 0;
        let words = emit(rng, Kind::Blt, registers, &r, true);
        load(registers, Kind::Blt, &words);
        list.extend(words);
    }
    if more && bytes >= 64 {
        let mut r = *registers;
        let (format, depth) = rng.pick(&[(0, 1), (0, 1), (0, 1), (4, 2), (5, 2), (6, 2), (8, 4), (8, 4), (8, 4)]);
        r[RASTER_MODE] = format << 28 | rng.bits() & 0xFF;
        r[DST_OFFSET] = frame_len - 64;
        r[STRIDE] = 32;
        r[WID_HEIGHT] = (32 / depth) << 16 | 2;
        (r[PAT_COLOR_0], r[SRC_COLOR_FG]) = (0xF0F0_F0F0, 0xCCCC_CCCC);
        let words = emit(rng, Kind::Blt, registers, &r, true);
        load(registers, Kind::Blt, &words);
        list.extend(words);
    }
    list
}

// ---- Recordings -----------------------------------------------------------------------------------------------------------------

fn bytes_of(words: &[u32]) -> Vec<u8> {
    words.iter().flat_map(|word| word.to_le_bytes()).collect()
}

/// A whole recording.
pub fn recording(rng: &mut Rng) -> Vec<u8> {
    let ring_len = match rng.below(6) {
        0..=2 => 1_024,
        3 => rng.between(1_024, 1_100) as u32,
        4 => 4_096,
        _ => rng.between(1_024, 4_096) as u32,
    };
    // how many words are filled with commands
    let filled = match rng.below(6) {
        0 => rng.between(64, 100) as u32,
        1 => rng.between(64, i64::from(ring_len)) as u32,
        2 | 3 => ring_len,
        _ => rng.between(200, 1_024) as u32,
    };
    let frame_len = some_frame_length(rng);
    let mut registers = model::ZEROS.registers;
    let mut ring: Vec<u32> = Vec::new();
    if rng.chance(3, 4) {
        ring.extend(ground(rng, &mut registers, frame_len, 4_000, filled >= 128));
    }
    if filled > 200 && rng.chance(3, 5) {
        ring.extend(table_load(rng, &mut registers, Some(0x100), 64)); // a tile to draw with
    }
    let most = rng.pick(&[8, 30, 100, 100, 300, 300, 2_000]);
    let full = filled as usize - 1;
    let ending = rng.below(10);
    // positions inside table loads
    let mut inside = Vec::new();
    if ending == 0 {
        // W in a recording: refused at ring word 0, waiting anywhere else
        if rng.chance(1, 2) {
            ring.clear();
        }
        let at = registers;
        let mut words = match rng.below(4) {
            0 => bad_table_load(rng, &registers, 22),
            1 => bad_table_load(rng, &registers, 29),
            _ => good(rng, &mut registers, frame_len, most, 100).remove(0),
        };
        registers = at;
        words[0] |= 1 << 31;
        inside.extend(model::is_table_load(words[0]).then(|| ring.len() + rng.between(1, 4) as usize));
        ring.extend(words);
    }
    if ending == 1 && rng.chance(2, 3) {
        // a great many pixels on few bytes, cut by the budget
        let mut r = wish(rng, Kind::Blt, &registers, frame_len, 100);
        r[BASE_OFFSET] &= 0xFFF;
        let mono = rng.chance(1, 2);
        r[BLT_MODE] = r[BLT_MODE] & !3 | u32::from(mono);
        if mono {
            let code = if rng.chance(3, 4) { 1 } else { 2 };
            set_source_mode(&mut r, code);
            r[BLT_MODE] &= !(X_NEGATIVE | Y_NEGATIVE);
        }
        let depth = model::bytes_per_pixel(&r).unwrap_or(1);
        let most_wide = (i64::from(frame_len) / depth).min(4_095);
        let (any_wide, any_high) = (rng.between(1, most_wide), rng.between(1, 4_095));
        let wide = rng.pick(&[1, most_wide, any_wide]) as u32;
        r[STRIDE] = 0;
        r[WID_HEIGHT] = wide << 16 | rng.pick(&[4_095, 4_095, any_high]) as u32;
        if settle(rng, Kind::Blt, &mut r, i64::from(frame_len), false)
            && (!mono || settle(rng, Kind::Blt, &mut r, i64::from(frame_len), true))
        {
            ring.extend(emit(rng, Kind::Blt, &registers, &r, true));
            registers = r;
        }
    }
    // the position behind each command
    let mut ends = vec![ring.len()];
    while ring.len() + 17 <= full {
        if ending == 4 && ring.len() + 400 < full && rng.chance(1, 20) {
            for words in bad_picture(rng, &registers, frame_len, ring_len, ring.len() as u32) {
                inside.push(ring.len() + rng.between(1, 3) as usize);
                ring.extend(words);
                ends.push(ring.len());
            }
            break;
        }
        if ending > 4 && (ring.len() + 34 > full || rng.chance(1, 60)) {
            let number = some_refusal(rng);
            let words =
                if rng.chance(1, 8) { refused_picture(rng, &registers, frame_len) } else { bad(rng, &registers, frame_len, number) };
            inside.extend(model::is_table_load(words[0]).then(|| ring.len() + rng.between(1, 4) as usize));
            ring.extend(words);
            ends.push(ring.len());
            break;
        }
        let room = (full - ring.len()) as u32;
        for words in good(rng, &mut registers, frame_len, most, room) {
            if ring.len() + words.len() <= full {
                if model::kind_of(words[0]).is_none() {
                    let words_before = rng.between(1, words.len() as i64 - 1);
                    inside.push(ring.len() + rng.pick(&[1, 2, 3, words_before, words_before]) as usize);
                }
                ring.extend(words);
                ends.push(ring.len());
            }
        }
        if rng.chance(1, 100) {
            break;
        }
    }
    let mut position = *ends.last().unwrap_or(&0) as u32;
    while (ring.len() as u32) < ring_len {
        ring.push(rng.stale());
    }
    match rng.below(30) {
        0 => position = rng.below(u64::from(ring_len)) as u32, // inside a command, or behind all of them
        1 => position = rng.pick(&[ring_len, ring_len, ring_len + 1, u32::MAX]),
        2 => position = rng.pick(&ends) as u32,
        3 | 4 if !inside.is_empty() => position = rng.pick(&inside) as u32,
        _ => {}
    }
    if ending == 0 && !inside.is_empty() && rng.chance(1, 2) {
        position = inside[0] as u32;
    }
    // how many units there are, up to a limit
    let limit = 120_000;
    let (state, _) = model::setup(ring_len, frame_len);
    let (state, _) = model::publish(state, position);
    let mut frame = vec![0; frame_len as usize];
    let mut cuts = Cuts::new();
    let (_, answer) = model::run(state, &ring, &mut frame, limit, &mut |_, _, _, after| cuts.see(after));
    let budget = match cuts.pick(rng) {
        Some(cut) if rng.chance(2, 3) => cut,
        _ => some_budget(rng, answer.units, if answer.word == Word::Spent { limit } else { u32::MAX }, true),
    };

    let mut words = vec![ring_len, frame_len, position, budget];
    words.extend(ring);
    bytes_of(&words)
}

/// The budgets that end a run inside a row of a BLT, by the BLT's way and, within it, by depth and direction of X.
struct Cuts {
    units: u32,
    slot: (usize, usize),
    found: [[Vec<u32>; 6]; WAYS.len()],
    /// where a BLT wants data, or has just accepted some
    wanted: Vec<u32>,
}

impl Cuts {
    fn new() -> Cuts {
        Cuts { units: 0, slot: (0, 0), found: Default::default(), wanted: Vec::new() }
    }

    /// After each unit; the first commands, which paint the ground, are left out.
    fn see(&mut self, after: &State) {
        self.units += 1;
        let r = &after.registers;
        if let Some(place) = after.place {
            let first = |before: i64| place.drawn == 0 || model::word_of_pixel(r, place.drawn - 1) < before;
            match place.data {
                Data::Wanted => self.wanted.push(self.units),
                Data::Fed { before, .. } if first(before) => self.wanted.push(self.units),
                _ => {}
            }
        }
        if let Some(place) = after.place.filter(|place| place.kind == Kind::Blt && after.completion >= 3) {
            if self.units == 1 || place.drawn <= 1 {
                let depth = model::bytes_per_pixel(r).unwrap_or(1) as usize;
                self.slot = (short_ways::way(r), 2 * (depth / 2) + usize::from(model::x_negative(r)));
            }
            if place.drawn % model::width(r) != 0 {
                self.found[self.slot.0][self.slot.1].push(self.units);
            }
        }
    }

    /// One of them, or none; ways that are rare are taken more often, and text, which has one direction, less.
    fn pick(&self, rng: &mut Rng) -> Option<u32> {
        let all = [
            "fill", "fill", "fill", "fill", "fill", "XOR", "XOR", "XOR", "XOR", "copy", "copy", "copy", "other code", "other code",
            "mono pattern", "mono pattern", "mono pattern", "sourceless", "sourceless", "text", "colour pattern", "colour pattern",
            "colour pattern", "host", "host", "host", "host",
        ];
        if !self.wanted.is_empty() && rng.chance(1, 8) {
            return Some(rng.pick(&self.wanted));
        }
        let sides = |name: &&str| {
            let way = WAYS.iter().position(|way| way == name).unwrap_or(0);
            self.found[way].iter().filter(|cuts| !cuts.is_empty()).collect::<Vec<_>>()
        };
        let ways: Vec<_> = all.iter().map(sides).filter(|sides| !sides.is_empty()).collect();
        if ways.is_empty() {
            return None;
        }
        let way = rng.below(ways.len() as u64) as usize;
        let cuts = rng.pick(&ways[way]);
        Some(rng.pick(cuts))
    }
}

/// 0, 1, exact, one off, small or huge.
fn some_budget(rng: &mut Rng, exact: u32, limit: u32, mostly_whole: bool) -> u32 {
    let any = match rng.below(if mostly_whole { 24 } else { 12 }) {
        0 => 0,
        1 => 1,
        2 | 3 => exact,
        4 => exact.saturating_sub(1),
        5 => exact + 1,
        6 => rng.below(u64::from(exact) + 1) as u32,
        7 | 8 => rng.below(12) as u32,
        9 => rng.bits(),
        _ => u32::MAX,
    };
    any.min(limit)
}

/// A recording that is bad or whose setup is refused, with the name of its fault.
pub fn damaged_recording(rng: &mut Rng) -> (&'static str, Vec<u8>) {
    let mut bytes = recording(rng);
    let set = |bytes: &mut Vec<u8>, index: usize, word: u32| bytes[4 * index..4 * index + 4].copy_from_slice(&word.to_le_bytes());
    match rng.below(12) {
        0 => {
            bytes.pop();
            ("recording one byte short", bytes)
        }
        1 => {
            bytes.push(rng.bits() as u8);
            ("recording one byte long", bytes)
        }
        2 => {
            let more = rng.chance(1, 2);
            let length = if more { bytes.len() + 4 } else { bytes.len() - 4 };
            bytes.resize(length, 0);
            ("recording one word off", bytes)
        }
        3 => ("recording empty", Vec::new()),
        4 => {
            bytes.truncate(rng.below(16) as usize);
            ("recording below 16 bytes", bytes)
        }
        5 => {
            let ring_len = rng.pick(&[4_097, 4_098, 5_000]);
            set(&mut bytes, 0, ring_len);
            bytes.resize(4 * (4 + ring_len as usize), 0);
            ("recording with ring over the limit", bytes)
        }
        6 => {
            set(&mut bytes, 0, rng.pick(&[0x4000_0040, u32::MAX, 16_385]));
            ("recording with ring over the limit", bytes)
        }
        7 => {
            set(&mut bytes, 1, rng.pick(&[32_769, 65_536, u32::MAX]));
            ("recording with frame over the limit", bytes)
        }
        8 | 11 => {
            let any = rng.between(0, 1_023) as u32;
            let ring_len = rng.pick(&[0, 1, 64, 64, 64, 1_023, 1_023, 1_023, any]);
            set(&mut bytes, 0, ring_len);
            if rng.chance(1, 3) {
                set(&mut bytes, 1, 0);
            }
            bytes.resize(4 * (4 + ring_len as usize), 0);
            ("recording with ring refused", bytes)
        }
        9 => {
            set(&mut bytes, 1, 0);
            ("recording with frame refused", bytes)
        }
        _ => {
            set(&mut bytes, 2, rng.bits() | 0x1000);
            ("recording with position refused", bytes)
        }
    }
}

// ---- Traces ---------------------------------------------------------------------------------------------------------------------

/// A host that feeds a ring, with a model beside it so that it knows what it is about.
struct Host<'a> {
    rng: &'a mut Rng,
    records: Vec<u32>,
    state: State,
    ring: Vec<u32>,
    frame: Vec<u8>,
    /// what is still to be stored
    queue: VecDeque<Item>,
    /// where the next word goes; stored words up to here may not be published yet
    tip: u32,
    /// the registers once all that was queued is loaded
    ahead: Registers,
    most: i64,
}

#[derive(Clone, Copy)]
enum Item {
    Word(u32),
    /// a word that stays as it stands in the ring
    Kept,
    /// behind a command with W
    ToZero,
    /// all that was stored is published, and the engine runs
    Pause,
}

impl Host<'_> {
    /// A call; the words that it does not look at are stale.
    fn record(&mut self, op: u32, a: u32) {
        let b = self.rng.stale();
        self.records.extend([op, a, b]);
    }

    fn ask_for_room(&mut self) {
        let a = self.rng.stale();
        self.record(3, a);
    }

    fn restart(&mut self) {
        let a = self.rng.stale();
        self.record(4, a);
        self.state = model::restart(self.state).0;
    }

    fn store(&mut self, position: u32, word: u32) {
        self.records.extend([0, position, word]);
        self.ring[position as usize] = word;
    }

    fn publish(&mut self, position: u32) {
        self.record(1, position);
        self.state = model::publish(self.state, position).0;
    }

    fn run(&mut self, budget: u32) {
        self.record(2, budget);
        self.state = model::run(self.state, &self.ring, &mut self.frame, budget, &mut |_, _, _, _| {}).0;
    }

    fn run_some(&mut self) {
        let mut frame = self.frame.clone();
        let mut cuts = Cuts::new();
        let (_, answer) = model::run(self.state, &self.ring, &mut frame, u32::MAX, &mut |_, _, _, after| cuts.see(after));
        let budget = match cuts.pick(self.rng) {
            Some(cut) if self.rng.chance(1, 4) => cut,
            _ => some_budget(self.rng, answer.units, u32::MAX, false),
        };
        self.run(budget);
    }

    fn distance(&self, from: u32, to: u32) -> u32 {
        (to + self.state.ring_len - from) % self.state.ring_len
    }

    /// After a restart, or when a wild publish went past what was stored.
    fn begin_again(&mut self) {
        self.queue.clear();
        self.tip = self.state.write;
        self.ahead = self.state.registers;
    }

    /// Queues the next command or two.
    fn think(&mut self) {
        let frame_len = self.state.frame_len;
        let near_end = self.tip == 0 || self.state.ring_len - self.tip < 12;
        let to_end = self.state.ring_len - self.tip;
        let list = if near_end && self.rng.chance(1, 4) {
            let number = self.rng.pick(&[21, 22, 22, 22, 29, 29]);
            vec![bad_table_load(self.rng, &self.ahead, number)]
        } else if (4..=60).contains(&to_end) && self.rng.chance(1, 6) {
            // up to the ring's end, or one word too long for W
            let count = to_end - self.rng.pick(&[3, 3, 2]);
            vec![table_load(self.rng, &mut self.ahead, Some(0x100), count)]
        } else if (18..=50).contains(&to_end) && self.rng.chance(if to_end < 20 { 2 } else { 1 }, 3) {
            // a picture across the ring's end, or begun again at word 0
            picture(self.rng, &mut self.ahead, frame_len, self.most, self.state.ring_len - 1)
        } else if self.rng.chance(1, 120) {
            self.long_picture()
        } else if self.rng.chance(1, 14) {
            bad_picture(self.rng, &self.ahead, frame_len, self.state.ring_len, self.tip)
        } else if self.rng.chance(1, 70) {
            vec![refused_picture(self.rng, &self.ahead, frame_len)]
        } else if self.rng.chance(1, 9) {
            let number = some_refusal(self.rng);
            vec![bad(self.rng, &self.ahead, frame_len, number)]
        } else {
            good(self.rng, &mut self.ahead, frame_len, self.most, self.state.ring_len)
        };
        let mut at = self.tip;
        for mut words in list {
            let length = words.len() as u32;
            let table_load = model::is_table_load(words[0]);
            let data = model::is_data(words[0]);
            let room_behind = self.state.ring_len - at;
            let w_is_good = at != 0 && length <= room_behind;
            let w = if !w_is_good {
                let whole = if table_load { 2 } else if data { 5 } else { 14 };
                self.rng.chance(1, whole) // refused by 22
            } else if room_behind < 2 * length {
                self.rng.chance(1, 2)
            } else {
                self.rng.chance(1, 10)
            };
            if w {
                words[0] |= 1 << 31;
            }
            if table_load || data || self.rng.chance(1, 20) {
                self.queue_in_parts(words);
            } else {
                self.queue.extend(words.into_iter().map(Item::Word));
            }
            at = (at + length) % self.state.ring_len;
            if w && w_is_good {
                self.queue.push_back(Item::ToZero);
                at = 0;
            }
        }
    }

    /// A picture of few pixels in one data command that fills the ring.
    fn long_picture(&mut self) -> Vec<Vec<u32>> {
        let mut list = picture(self.rng, &mut self.ahead, self.state.frame_len, 12, 200);
        list.truncate(2);
        if let Some(words) = list.get_mut(1) {
            let count = self.state.ring_len - 3;
            words[1] = count;
            words.resize(2 + count as usize, 0);
        }
        list
    }

    /// Queues a table load or a data command, often with a pause after one, two or three words or inside its data. Of many words of data
    /// most are left as they stand in the ring.
    fn queue_in_parts(&mut self, words: Vec<u32>) {
        let data = model::is_data(words[0]);
        let inside = self.rng.between(1, words.len() as i64 - 1) as usize;
        let pause = match self.rng.below(8) {
            words_first @ 1..=3 => words_first as usize,
            4 => inside,
            5 => words.len() - 1,
            _ => 0,
        };
        let long = words.len() > if data { 40 } else { 67 };
        let first_data = if data { 2 } else { 3 };
        for (i, word) in words.into_iter().enumerate() {
            if i > 0 && i == pause {
                self.queue.push_back(Item::Pause);
            }
            let kept = long && i >= first_data && !self.rng.chance(1, if i < 100 { 5 } else { 40 });
            self.queue.push_back(if kept { Item::Kept } else { Item::Word(word) });
        }
    }

    /// Stores one queued item, if there is a free word for it.
    fn feed_one(&mut self) -> bool {
        if self.queue.is_empty() {
            self.think();
        }
        let size = self.state.ring_len;
        match self.queue.front().copied() {
            Some(item @ (Item::Word(_) | Item::Kept)) if (self.tip + 1) % size != self.state.read => {
                if let Item::Word(word) = item {
                    self.store(self.tip, word);
                }
                self.tip = (self.tip + 1) % size;
                self.queue.pop_front();
                // words that are kept cost nothing
                return !matches!(self.queue.front(), Some(Item::Kept)) || self.feed_one();
            }
            Some(Item::Pause) => {
                self.publish(self.tip);
                self.run(u32::MAX);
            }
            Some(Item::ToZero) => {
                let to_zero = self.distance(self.state.read, 0);
                if self.tip != 0 && (self.state.read == 0 || to_zero < self.distance(self.state.read, self.tip)) {
                    return false;
                }
                self.tip = 0;
            }
            _ => return false,
        }
        self.queue.pop_front();
        true
    }

    /// Publishes some, or all, of what was stored.
    fn publish_some(&mut self) {
        let stored = self.distance(self.state.write, self.tip);
        if stored == 0 {
            return;
        }
        let step = match self.rng.below(5) {
            0 => 1,
            1 | 2 => stored,
            3 => stored - 1,
            _ => 1 + self.rng.below(u64::from(stored)) as u32,
        };
        let position = (self.state.write + step) % self.state.ring_len;
        self.publish(position);
    }

    /// A position that nobody thought about.
    fn publish_wild(&mut self) {
        let size = self.state.ring_len;
        let (read, write) = (self.state.read, self.state.write);
        let position = match self.rng.below(12) {
            0 => size,
            1 => size + 1 + self.rng.below(4) as u32,
            2 => u32::MAX,
            3 | 4 => read,
            5 | 6 => write,
            7 | 8 => (write + size - 1) % size,
            9 => (read + size - 1) % size, // room 0
            _ => self.rng.below(u64::from(size)) as u32,
        };
        self.publish(position);
        let reach = self.distance(self.state.read, self.tip);
        if self.distance(self.state.read, self.state.write) > reach {
            self.begin_again();
        }
    }

    /// "the host may already have reused the words of the command being drawn"
    fn reuse(&mut self) {
        let size = self.state.ring_len;
        let taken = self.distance(self.state.read, self.tip);
        let free = (size - taken).min(17);
        let back = 1 + self.rng.below(u64::from(free)) as u32;
        if back < size - taken || taken == 0 {
            let word = self.rng.stale();
            self.store((self.state.read + size - back) % size, word);
        }
    }

    /// A host that alters the data command that is accepted: its header, its count word, a data word, or a word that W skips.
    fn alter(&mut self, count: u32, w: bool) {
        let size = self.state.ring_len;
        let skipped = size - self.state.read;
        let into = match self.rng.below(8) {
            0..=2 => 0,
            3..=5 => 1,
            6 if w && skipped > 2 + count => self.rng.between(i64::from(2 + count), i64::from(skipped) - 1) as u32,
            _ => 2 + self.rng.below(u64::from(count)) as u32,
        };
        let any = self.rng.stale();
        let word = if into == 1 { self.rng.pick(&[0, 1, count + 1, count - 1, any]) } else { any };
        self.store((self.state.read + into) % size, word);
    }

    /// Goes on near the ring's end, or at its first word, without filling the ring: what is published while the engine is stopped is
    /// dropped by the restart.
    fn publish_far(&mut self) {
        let size = self.state.ring_len;
        let any = self.rng.between(1, 60) as u32;
        let before_end = self.rng.pick(&[0, 1, 2, 3, 5, 14, 17, 18, 19, 31, 34, any, any, any, any, any, any]);
        self.publish((size - before_end) % size);
    }

    fn step(&mut self) {
        if self.state.stop != 0 {
            match self.rng.below(10) {
                0..=4 => {
                    if self.rng.chance(2, 3) {
                        self.publish_far();
                    }
                    self.restart();
                    self.begin_again();
                }
                5 => self.run_some(),
                6 | 7 => {
                    for _ in 0..self.rng.below(20) {
                        self.feed_one();
                    }
                    self.publish_some();
                }
                8 => self.publish_wild(),
                _ => self.ask_for_room(),
            }
            return;
        }
        if let Some(Data::Fed { count, w, .. }) = self.state.place.map(|place| place.data) {
            if self.rng.chance(1, 6) {
                self.alter(count, w);
                return;
            }
        }
        match self.rng.below(40) {
            0..=17 => {
                let words = match self.rng.below(4) {
                    0 => 1,
                    1 => 17,
                    2 => self.rng.between(1, 17),
                    _ => self.rng.between(1, 60),
                };
                for _ in 0..words {
                    if !self.feed_one() {
                        self.publish_some();
                        self.run_some();
                        break;
                    }
                }
                self.publish_some();
            }
            18..=32 => self.run_some(),
            33 | 34 => self.publish_some(),
            35 => self.ask_for_room(),
            36 => self.publish_wild(),
            37 => self.restart(), // refused by 7
            _ => {
                if self.state.place.is_some() {
                    self.reuse();
                }
            }
        }
    }
}

/// A whole trace.
pub fn trace(rng: &mut Rng) -> Vec<u8> {
    let ring_len = match rng.below(5) {
        0..=2 => 1_024,
        3 => rng.between(1_024, 1_100) as u32,
        _ => rng.pick(&[1_025, 1_200, 2_000, 4_096]),
    };
    let frame_len = some_frame_length(rng).min(8_000);
    let (state, _) = model::setup(ring_len, frame_len);
    let most = rng.pick(&[6, 20, 60, 200]);
    let records = rng.pick(&[60, 700, 1_700, 3_200]);
    let mut host = Host {
        rng,
        records: vec![ring_len, frame_len],
        state,
        ring: vec![0; ring_len as usize],
        frame: vec![0; frame_len as usize],
        queue: VecDeque::new(),
        tip: 0,
        ahead: model::ZEROS.registers,
        most,
    };
    let words = ground(host.rng, &mut host.ahead, frame_len, 2_000, true);
    host.queue.extend(words.into_iter().map(Item::Word));
    if host.rng.chance(3, 5) {
        let words = table_load(host.rng, &mut host.ahead, Some(0x100), 64);
        host.queue_in_parts(words);
    }
    while host.records.len() < 3 * records {
        host.step();
    }
    host.run(u32::MAX);
    bytes_of(&host.records)
}

/// A trace that is bad, or bad at some point, or whose setup is refused, with the name of its fault.
pub fn damaged_trace(rng: &mut Rng) -> (&'static str, Vec<u8>) {
    let mut bytes = trace(rng);
    let set = |bytes: &mut Vec<u8>, index: usize, word: u32| bytes[4 * index..4 * index + 4].copy_from_slice(&word.to_le_bytes());
    let records = (bytes.len() / 4 - 2) / 3;
    let record = rng.below(records as u64) as usize;
    match rng.below(9) {
        0 => {
            bytes.truncate(rng.below(8) as usize);
            ("trace below two words", bytes)
        }
        1 => {
            let cut = rng.between(1, 11) as usize;
            bytes.truncate(8 + 12 * record + cut);
            ("trace with a cut record", bytes)
        }
        2 => {
            set(&mut bytes, 2 + 3 * record, rng.pick(&[5, 6, 256, u32::MAX]));
            ("trace with an unknown op", bytes)
        }
        3 => {
            let ring_len = u32::from_le_bytes([bytes[0], bytes[1], bytes[2], bytes[3]]);
            set(&mut bytes, 2 + 3 * record, 0);
            set(&mut bytes, 3 + 3 * record, rng.pick(&[ring_len, ring_len + 1, u32::MAX]));
            ("trace with a store outside", bytes)
        }
        4 => {
            set(&mut bytes, 0, rng.pick(&[4_097, 16_384, u32::MAX]));
            ("trace with ring over the limit", bytes)
        }
        5 => {
            set(&mut bytes, 1, rng.pick(&[32_769, u32::MAX]));
            ("trace with frame over the limit", bytes)
        }
        6 => {
            set(&mut bytes, 0, rng.pick(&[0, 1, 64, 1_023]));
            ("trace with ring refused", bytes)
        }
        7 => {
            set(&mut bytes, 1, 0);
            ("trace with frame refused", bytes)
        }
        _ => {
            bytes.truncate(8);
            ("trace of setup alone", bytes)
        }
    }
}
