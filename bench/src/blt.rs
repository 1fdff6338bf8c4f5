//! A BLT: what its registers describe, its bounds, and its rows by the fastest way that gives the same bytes.

use crate::engine::{depth_of, place_from, place_to, Registers, Table};
use crate::engine::{BLT_MODE, CH3_MODE_STR, CH3_OFFSET, DST_OFFSET, PAT_COLOR_0, PAT_COLOR_1, PAT_DATA_0, PAT_DATA_1};
use crate::engine::{RASTER_MODE, SRC_COLOR_BG, SRC_COLOR_FG, SRC_OFFSET, STRIDE, WID_HEIGHT};
use crate::host::{self, Layout};
use crate::order::{self, Pair};
use crate::raster::{self, Flat, FlatTile, Operation, Rop, RopTile, Tile};
use crate::text::{self, Font, Inks};

/// Rows of bytes in frame memory: where the first one begins, and the way to the next.
#[derive(Clone, Copy)]
pub struct Rows {
    pub first: usize,
    pub step: isize,
}

impl Rows {
    /// The first byte of a row.
    #[inline]
    pub fn at(self, j: usize) -> usize {
        self.first.wrapping_add_signed(self.step * j as isize)
    }
}

#[derive(Clone, Copy)]
pub enum Source {
    /// None is selected.
    Color,
    Frame(Rows),
    Bits(Font),
    /// Comes through the ring.
    Host(Layout),
}

#[derive(Clone, Copy)]
pub enum Pattern {
    Solid,
    Mono,
    /// Of the table.
    Color,
}

pub struct Blt<'a> {
    pub width: usize,
    pub height: usize,
    pub depth: usize,
    /// X negative: columns go from right to left.
    pub left: bool,
    pub up: bool,
    pub to: Rows,
    pub source: Source,
    /// The bytes that a source is read from, if not from frame memory: they came through the ring.
    pub data: Option<&'a [u8]>,
    pub pattern: Pattern,
    /// The pattern's row and column of the first pixel, in the high bits.
    pub place: u32,
}

impl Blt<'static> {
    /// The BLT that the registers describe, or the number that refuses it.
    #[inline]
    pub fn judged(r: &Registers, frame: usize) -> Result<Blt<'static>, u32> {
        let depth = depth_of(r[RASTER_MODE])?;
        let mode = r[BLT_MODE];
        let (left, up) = (mode & 0x200 != 0, mode & 0x100 != 0);
        let (pattern, place) = pattern_of(r).ok_or(24u32)?;
        if bad_source(r[RASTER_MODE], mode) || mode & 0xC3 == 2 && host::straddles(r, depth) {
            return Err(24);
        }
        let (width, height) = ((r[WID_HEIGHT] >> 16 & 0xFFF) as usize, (r[WID_HEIGHT] & 0xFFF) as usize);
        if width == 0 || height == 0 {
            return Err(25);
        }
        let bounds = Bounds { bytes: width * depth, height, left, up, frame };
        let to = bounds.rows(place_to(r), r[STRIDE] & 0xFFFF).ok_or(27u32)?;
        let source = if mode & 3 == 0 {
            Source::Color
        } else if mode & 3 == 2 {
            Source::Host(Layout::of(r, width, depth))
        } else if mode & 0xC0 == 0 {
            Source::Frame(bounds.rows(place_from(r), r[STRIDE] >> 16).ok_or(28u32)?)
        } else {
            let skip = r[SRC_OFFSET] >> 26 & 7;
            let bytes = (skip as usize + width + 7) / 8;
            let stride = if mode & 0x80 != 0 { bytes as u32 } else { r[STRIDE] >> 16 };
            let rows = Bounds { bytes, ..bounds }.rows(place_from(r), stride).ok_or(28u32)?;
            Source::Bits(Font { rows, skip, bytes })
        };
        Ok(Blt { width, height, depth, left, up, to, source, data: None, pattern, place })
    }

    /// A rectangle of it as a BLT of its own: from a column and a row on, in the order of drawing.
    #[inline]
    pub fn part(&self, column: usize, row: usize, width: usize, height: usize) -> Blt<'static> {
        let skipped = if self.left { self.width - column - width } else { column };
        let to = Rows { first: self.to.at(row) + skipped * self.depth, step: self.to.step };
        let moved = |shift: u32, steps: usize, back: bool| {
            let steps = if back { steps.wrapping_neg() } else { steps } as u32;
            (self.place >> shift).wrapping_add(steps) % 8 << shift
        };
        let place = moved(26, column, self.left) | moved(29, row, self.up);
        Blt { width, height, to, place, ..*self }
    }
}

/// The pattern, channel 3's in place of RASTER_MODE's, if it is one that is carried; and its place.
#[inline]
fn pattern_of(r: &Registers) -> Option<(Pattern, u32)> {
    let (raster, channel) = (r[RASTER_MODE], r[CH3_MODE_STR]);
    let pattern = match raster >> 8 & 3 {
        0 => Pattern::Solid,
        1 => Pattern::Mono,
        2 => Pattern::Color,
        _ => return None,
    };
    if channel >> 31 == 0 {
        return Some((pattern, r[DST_OFFSET]));
    }
    // of the mode bits pattern mode alone, and the same format
    let good = channel & 0x40FC_0000 == 0x0020_0000 && channel >> 24 & 15 == raster >> 28;
    good.then_some((Pattern::Color, r[CH3_OFFSET]))
}

/// 24 by pattern inversion or a source: its mode, its select, a mono source that goes back, and the source bits with a colour
/// mode.
#[inline]
fn bad_source(raster: u32, mode: u32) -> bool {
    let (select, kind) = (mode & 3, mode >> 6 & 3);
    raster & 0x1000 != 0
        || kind == 3
        || select == 3
        || select == 1 && (kind != 0 && mode & 0x200 != 0 || kind == 2 && mode & 0x100 != 0)
        || kind == 0 && raster & 0x2800 != 0
}

/// Rows of so many bytes, with their directions, in a frame memory of so many.
#[derive(Clone, Copy)]
struct Bounds {
    bytes: usize,
    height: usize,
    left: bool,
    up: bool,
    frame: usize,
}

impl Bounds {
    /// The rows with this place and stride, if all lie in frame memory. With X negative the place is a row's last byte.
    #[inline]
    fn rows(self, place: i64, stride: u32) -> Option<Rows> {
        let (bytes, stride) = (self.bytes as i64, stride as i64);
        let first = if self.left { place + 1 - bytes } else { place };
        let step = if self.up { -stride } else { stride };
        let last = first + step * (self.height as i64 - 1);
        if first.min(last) < 0 || first.max(last) + bytes > self.frame as i64 {
            return None;
        }
        Some(Rows { first: first as usize, step: step as isize })
    }
}

// ---- drawing

pub fn draw(frame: &mut [u8], b: &Blt, r: &Registers, table: &Table) {
    match (b.source, b.pattern) {
        (Source::Bits(font), Pattern::Solid) => draw_text(frame, b, r, font),
        (Source::Bits(font), Pattern::Mono) => draw_text_mono(frame, b, r, font),
        (_, Pattern::Solid) => draw_solid(frame, b, r),
        (_, Pattern::Mono) => draw_mono(frame, b, r),
        (source, Pattern::Color) => draw_color(frame, b, r, source, table),
    }
}

/// A solid pattern, and no mono source.
fn draw_solid(frame: &mut [u8], b: &Blt, r: &Registers) {
    let code = r[RASTER_MODE] & 0xFF;
    let pattern = raster::repeated(b.depth, r[PAT_COLOR_0]);
    match b.source {
        Source::Frame(from) if code == 0xCC => copy(frame, b, from),
        Source::Frame(from) if raster::reads_source(code) => {
            let rop = Rop::of(code, pattern);
            combine(frame, b, from, |_| rop)
        }
        _ => change(frame, b, Flat::of(code, pattern, raster::repeated(b.depth, r[SRC_COLOR_FG]))),
    }
}

/// One colour everywhere.
fn fill(frame: &mut [u8], b: &Blt, value: u32) {
    let n = b.width * b.depth;
    if n >= 1024 && b.depth > 1 && b.to.step.unsigned_abs() >= n {
        return fill_long(frame, b, value);
    }
    for j in 0..b.height {
        let at = b.to.at(j);
        raster::fill(&mut frame[at..at + n], b.depth, value);
    }
}

/// Long rows that lie apart: copies of the first, since a copy is faster than a fill of two or four bytes.
#[inline(never)]
fn fill_long(frame: &mut [u8], b: &Blt, value: u32) {
    let first = b.to.at(0)..b.to.at(0) + b.width * b.depth;
    raster::fill(&mut frame[first.clone()], b.depth, value);
    for j in 1..b.height {
        frame.copy_within(first.clone(), b.to.at(j));
    }
}

/// One operation without a source everywhere.
fn change(frame: &mut [u8], b: &Blt, f: Flat) {
    if f.and == 0 {
        return fill(frame, b, f.xor);
    }
    let n = b.width * b.depth;
    for j in 0..b.height {
        let at = b.to.at(j);
        raster::change(&mut frame[at..at + n], f);
    }
}

// ---- colour sources

impl Blt<'_> {
    /// Row j and its source.
    #[inline]
    fn pair(&self, from: Rows, j: usize) -> Pair {
        Pair { from: from.at(j), to: self.to.at(j), bytes: self.width * self.depth, left: self.left }
    }
}

#[inline(never)]
fn copy(frame: &mut [u8], b: &Blt, from: Rows) {
    for j in 0..b.height {
        let pair = b.pair(from, j);
        if let Some(data) = b.data {
            frame[pair.to..pair.to + pair.bytes].copy_from_slice(&data[pair.from..pair.from + pair.bytes]);
        } else if pair.smears() {
            order::copy(frame, b.depth, pair);
        } else {
            frame.copy_within(pair.from..pair.from + pair.bytes, pair.to);
        }
    }
}

/// Combines each row with its source, row j by the j-th operation.
#[inline(never)]
fn combine<O: Operation>(frame: &mut [u8], b: &Blt, from: Rows, operation: impl Fn(usize) -> O) {
    for j in 0..b.height {
        let pair = b.pair(from, j);
        let Pair { from, to, bytes, .. } = pair;
        let o = operation(j);
        if let Some(data) = b.data {
            raster::combine(&mut frame[to..to + bytes], &data[from..from + bytes], &o);
        } else if from + bytes <= to {
            let (low, high) = frame.split_at_mut(to);
            raster::combine(&mut high[..bytes], &low[from..from + bytes], &o);
        } else if to + bytes <= from {
            let (low, high) = frame.split_at_mut(from);
            raster::combine(&mut low[to..to + bytes], &high[..bytes], &o);
        } else if pair.smears() {
            order::combine(frame, b.depth, pair, &o);
        } else {
            combine_overlapping(frame, pair, &o);
        }
    }
}

/// A row that overlaps its source and meets no byte that it has overwritten: block by block in its direction, the source of each
/// read whole before it is written.
#[inline(never)]
fn combine_overlapping(frame: &mut [u8], pair: Pair, o: &impl Operation) {
    const BLOCK: usize = 256;
    let Pair { from, to, bytes, left } = pair;
    if bytes < BLOCK {
        return combine_tiles(frame, pair, o);
    }
    let whole = bytes / BLOCK * BLOCK;
    let rest = Pair { from: from + whole, to: to + whole, bytes: bytes - whole, left };
    let block = |frame: &mut [u8], at: usize| {
        let source: [u8; BLOCK] = frame[from + at..from + at + BLOCK].try_into().unwrap();
        raster::combine(&mut frame[to + at..to + at + BLOCK], &source, o);
    };
    if left {
        combine_tiles(frame, rest, o);
        (0..whole).step_by(BLOCK).rev().for_each(|at| block(frame, at));
    } else {
        (0..whole).step_by(BLOCK).for_each(|at| block(frame, at));
        combine_tiles(frame, rest, o);
    }
}

/// The same of a short row, by smaller blocks.
fn combine_tiles(frame: &mut [u8], pair: Pair, o: &impl Operation) {
    let Pair { from, to, bytes, left } = pair;
    let whole = bytes / 32 * 32;
    let tile = |frame: &mut [u8], at: usize| {
        let new: [u8; 32] = o.part(&frame[to + at..to + at + 32], &frame[from + at..from + at + 32]);
        frame[to + at..to + at + 32].copy_from_slice(&new);
    };
    if !left {
        (0..whole).step_by(32).for_each(|at| tile(frame, at));
    }
    let mut source = [0; 32];
    source[..bytes - whole].copy_from_slice(&frame[from + whole..from + bytes]);
    o.last(&mut frame[to + whole..to + bytes], &source[..bytes - whole]);
    if left {
        (0..whole).step_by(32).rev().for_each(|at| tile(frame, at));
    }
}

// ---- mono patterns

/// The pattern's row that row j gets, and the column at its lowest byte.
#[inline]
fn pattern_place(b: &Blt, j: usize) -> (usize, u32) {
    let (x, y) = (b.place >> 26, (b.place >> 29) as usize);
    let row = if b.up { y.wrapping_sub(j) } else { y + j } & 7;
    let column = if b.left { x.wrapping_sub(b.width as u32 - 1) } else { x } & 7;
    (row, column)
}

/// The bits of the pattern row that row j gets, from its lowest byte on, as a mask.
#[inline]
fn pattern_mask(b: &Blt, r: &Registers, j: usize) -> Tile {
    let data = r[PAT_DATA_0] as u64 | (r[PAT_DATA_1] as u64) << 32;
    let (row, column) = pattern_place(b, j);
    raster::spread(b.depth, ((data >> (8 * row)) as u8).rotate_left(column))
}

/// A mono pattern, and no mono source.
#[inline(never)]
fn draw_mono(frame: &mut [u8], b: &Blt, r: &Registers) {
    let code = r[RASTER_MODE];
    let holes = code & 0x400 != 0;
    let [clear, set, source] = [PAT_COLOR_0, PAT_COLOR_1, SRC_COLOR_FG].map(|i| raster::repeated(b.depth, r[i]));
    match b.source {
        Source::Frame(from) if raster::reads_source(code) => {
            let set = Rop::of(code, set);
            let clear = if holes { Rop::KEEP } else { Rop::of(code, clear) };
            combine(frame, b, from, |j| RopTile::chosen(clear, set, &pattern_mask(b, r, j)));
        }
        _ => {
            let clear = if holes { Flat::KEEP } else { Flat::of(code, clear, source) };
            change_mono(frame, b, r, clear, Flat::of(code, set, source));
        }
    }
}

/// Two operations without a source, by the pattern's bits.
#[inline(never)]
fn change_mono(frame: &mut [u8], b: &Blt, r: &Registers, clear: Flat, set: Flat) {
    let stores = clear.and | set.and == 0;
    let n = b.width * b.depth;
    let tile = |j: usize| FlatTile::chosen(clear, set, &pattern_mask(b, r, j));
    let mut draw = |j: usize, tile: &FlatTile| {
        let at = b.to.at(j);
        let row = &mut frame[at..at + n];
        if stores {
            raster::fill_tile(row, &tile.xor);
        } else {
            raster::change_tile(row, tile);
        }
    };
    if b.height <= 8 {
        (0..b.height).for_each(|j| draw(j, &tile(j)));
    } else {
        let tiles: [FlatTile; 8] = std::array::from_fn(tile);
        (0..b.height).for_each(|j| draw(j, &tiles[j % 8]));
    }
}

// ---- colour patterns

/// The row of a colour pattern that row j gets, from its lowest byte on.
#[inline]
fn color_row(table: &Table, b: &Blt, j: usize) -> Tile {
    let (row, column) = pattern_place(b, j);
    let words = &table[0x100 + 2 * b.depth * row..][..2 * b.depth];
    match *words {
        [w0, w1] => {
            let eight = (w0 as u64 | (w1 as u64) << 32).rotate_right(8 * column);
            std::array::from_fn(|i| (eight >> (32 * (i % 2))) as u32)
        }
        [w0, w1, w2, w3] => {
            let [low, high] = [[w0, w1], [w2, w3]].map(|w| w[0] as u128 | (w[1] as u128) << 32);
            let eight = (low | high << 64).rotate_right(16 * column);
            std::array::from_fn(|i| (eight >> (32 * (i % 4))) as u32)
        }
        _ => std::array::from_fn(|i| words[(i + column as usize) % 8]),
    }
}

#[inline(never)]
fn draw_color(frame: &mut [u8], b: &Blt, r: &Registers, source: Source, table: &Table) {
    let code = r[RASTER_MODE];
    match source {
        Source::Bits(font) if raster::reads_pattern(code) => {
            for j in 0..b.height {
                let inks = color_row(table, b, j).map(|pattern| inks(b, r, pattern));
                let tiles =
                    Inks { clear: FlatTile::from(inks.map(|i| i.clear)), set: FlatTile::from(inks.map(|i| i.set)) };
                text::draw_tiles(frame, b, font, j, tiles);
            }
        }
        Source::Bits(font) => draw_text(frame, b, r, font),
        _ if !raster::reads_pattern(code) => draw_solid(frame, b, r),
        Source::Frame(from) if raster::reads_source(code) => {
            combine(frame, b, from, |j| RopTile::of(code, &color_row(table, b, j)))
        }
        _ if code & 0xFF == 0xF0 => rows_by_tile(frame, b, |j| color_row(table, b, j), raster::fill_tile),
        _ => {
            let source = raster::repeated(b.depth, r[SRC_COLOR_FG]);
            rows_by_tile(frame, b, |j| FlatTile::of(code, &color_row(table, b, j), source), raster::change_tile)
        }
    }
}

/// Row j by the j-th tile, of which there are eight.
#[inline(never)]
fn rows_by_tile<T>(frame: &mut [u8], b: &Blt, tile: impl Fn(usize) -> T, draw: impl Fn(&mut [u8], &T)) {
    let n = b.width * b.depth;
    let mut row = |j: usize, tile: &T| {
        let at = b.to.at(j);
        draw(&mut frame[at..at + n], tile);
    };
    if b.height <= 8 {
        (0..b.height).for_each(|j| row(j, &tile(j)));
    } else {
        let tiles: [T; 8] = std::array::from_fn(tile);
        (0..b.height).for_each(|j| row(j, &tiles[j % 8]));
    }
}

// ---- mono sources

/// What pixels get where the source's bit is clear, and where it is set, at a pattern value.
#[inline]
fn inks(b: &Blt, r: &Registers, pattern: u32) -> Inks<Flat> {
    let mode = r[RASTER_MODE];
    let [back, fore] = [SRC_COLOR_BG, SRC_COLOR_FG].map(|i| raster::repeated(b.depth, r[i]));
    let set = Flat::of(mode, pattern, fore);
    let clear = if mode & 0x800 != 0 { Flat::KEEP } else { Flat::of(mode, pattern, back) };
    if mode & 0x2000 != 0 {
        Inks { clear: set, set: clear }
    } else {
        Inks { clear, set }
    }
}

/// A mono source and a solid pattern.
#[inline(never)]
fn draw_text(frame: &mut [u8], b: &Blt, r: &Registers, font: Font) {
    text::draw(frame, b, font, inks(b, r, raster::repeated(b.depth, r[PAT_COLOR_0])));
}

/// A mono source and a mono pattern.
#[inline(never)]
fn draw_text_mono(frame: &mut [u8], b: &Blt, r: &Registers, font: Font) {
    let holes = Inks { clear: Flat::KEEP, set: Flat::KEEP };
    let [clear, set] = [PAT_COLOR_0, PAT_COLOR_1].map(|i| inks(b, r, raster::repeated(b.depth, r[i])));
    let clear = if r[RASTER_MODE] & 0x400 != 0 { holes } else { clear };
    for j in 0..b.height {
        let mask = pattern_mask(b, r, j);
        let tiles =
            Inks { clear: FlatTile::chosen(clear.clear, set.clear, &mask), set: FlatTile::chosen(clear.set, set.set, &mask) };
        text::draw_tiles(frame, b, font, j, tiles);
    }
}
