//! Mono sources: rows of bits, expanded to pixels eight at a time.

use crate::blt::{Blt, Rows};
use crate::raster::{get, put, Flat, FlatTile, Tile, MASKS_1, MASKS_2, MASKS_4};

/// A mono source: its rows of bits, the bytes of each, and how many bits of a row's first byte are skipped.
#[derive(Clone, Copy)]
pub struct Font {
    pub rows: Rows,
    pub bytes: usize,
    pub skip: u32,
}

/// What pixels get where their bit is clear, and where it is set: of a solid pattern one operation, of the others eight.
#[derive(Clone, Copy)]
pub struct Inks<F> {
    pub clear: F,
    pub set: F,
}

/// A word that is repeated, or the words of a tile.
trait Words: Copy {
    fn at(&self, i: usize) -> u32;
}

impl Words for u32 {
    #[inline(always)]
    fn at(&self, _i: usize) -> u32 {
        *self
    }
}

impl Words for Tile {
    #[inline(always)]
    fn at(&self, i: usize) -> u32 {
        self[i]
    }
}

/// What pixels get by their bits; with STORES nothing looks at what stands there. Eight pixels are W words. Of the four values
/// the first of each pair is for clear bits, and the second says where that for set ones differs.
#[derive(Clone, Copy)]
struct Painter<V, const W: usize, const STORES: bool> {
    masks: &'static [[u32; W]; 256],
    and: [V; 2],
    xor: [V; 2],
}

impl<V: Words, const W: usize, const STORES: bool> Painter<V, W, STORES> {
    #[inline(always)]
    fn one(&self, i: usize, there: u32, mask: u32) -> u32 {
        let by = |pair: &[V; 2]| pair[0].at(i) ^ (mask & pair[1].at(i));
        if STORES {
            by(&self.xor)
        } else {
            (there & by(&self.and)) ^ by(&self.xor)
        }
    }

    /// Eight pixels: all are read before one is written.
    #[inline(always)]
    fn eight(&self, block: &mut [u8], bits: u8) {
        let masks = self.masks[bits as usize];
        let mut words = [0; W];
        for i in 0..W {
            words[i] = self.one(i, get(&block[4 * i..4 * i + 4]), masks[i]);
        }
        for i in 0..W {
            put(&mut block[4 * i..4 * i + 4], words[i]);
        }
    }

    /// Fewer than eight.
    #[inline(always)]
    fn last(&self, block: &mut [u8], bits: u8) {
        let masks = self.masks[bits as usize];
        let end = block.len() / 4 % W;
        let mut words = block.chunks_exact_mut(4);
        for (i, w) in (0..W).zip(&mut words) {
            put(w, self.one(i, get(w), masks[i]));
        }
        for (i, to) in words.into_remainder().iter_mut().enumerate().take(3) {
            *to = (self.one(end, (*to as u32) << (8 * i), masks[end]) >> (8 * i)) as u8;
        }
    }

    /// One row, by the bits of these bytes without the first `skip`.
    #[inline(never)]
    fn row(self, row: &mut [u8], bytes: &[u8], skip: u32) {
        let joined = |high: u8, low: u8| ((high as u32) << skip | low as u32 >> (8 - skip)) as u8;
        let full = row.len() / (4 * W);
        let mut blocks = row.chunks_exact_mut(4 * W);
        if skip == 0 {
            (&mut blocks).zip(bytes).for_each(|(block, &byte)| self.eight(block, byte));
        } else {
            (&mut blocks).zip(bytes.windows(2)).for_each(|(block, two)| self.eight(block, joined(two[0], two[1])));
        }
        if let [byte, next @ ..] = &bytes[full..] {
            self.last(blocks.into_remainder(), joined(*byte, next.first().copied().unwrap_or(0)));
        }
    }

    /// Row j, if it lies apart from its font.
    #[inline(always)]
    fn draw(self, frame: &mut [u8], b: &Blt, font: Font, j: usize) -> bool {
        let n = b.width * W / 2;
        let (from, to) = (font.rows.at(j), b.to.at(j));
        if let Some(data) = b.data {
            self.row(&mut frame[to..to + n], &data[from..from + font.bytes], font.skip);
        } else if from + font.bytes <= to {
            let (low, high) = frame.split_at_mut(to);
            self.row(&mut high[..n], &low[from..from + font.bytes], font.skip);
        } else if to + n <= from {
            let (low, high) = frame.split_at_mut(from);
            self.row(&mut low[to..to + n], &high[..font.bytes], font.skip);
        } else {
            return false;
        }
        true
    }

    /// All rows, by one painter.
    fn draw_all(self, frame: &mut [u8], b: &Blt, font: Font, inks: Inks<Flat>) {
        for j in 0..b.height {
            if !self.draw(frame, b, font, j) {
                draw_in_order(frame, b, font, j, &FlatTile::solid(inks.clear), &FlatTile::solid(inks.set));
            }
        }
    }
}

fn draw_by<const W: usize>(masks: &'static [[u32; W]; 256], frame: &mut [u8], b: &Blt, font: Font, inks: Inks<Flat>) {
    let Inks { clear, set } = inks;
    let (and, xor) = ([clear.and, clear.and ^ set.and], [clear.xor, clear.xor ^ set.xor]);
    if clear.and | set.and == 0 {
        Painter::<u32, W, true> { masks, and, xor }.draw_all(frame, b, font, inks);
    } else {
        Painter::<u32, W, false> { masks, and, xor }.draw_all(frame, b, font, inks);
    }
}

/// All rows, with a solid pattern.
pub fn draw(frame: &mut [u8], b: &Blt, font: Font, inks: Inks<Flat>) {
    match b.depth {
        1 => draw_by(&MASKS_1, frame, b, font, inks),
        2 => draw_by(&MASKS_2, frame, b, font, inks),
        _ => draw_by(&MASKS_4, frame, b, font, inks),
    }
}

/// Row j, with the operations of a pattern row.
pub fn draw_tiles(frame: &mut [u8], b: &Blt, font: Font, j: usize, inks: Inks<FlatTile>) {
    let Inks { clear, set } = inks;
    let differ = |x: Tile, y: Tile| std::array::from_fn(|i| x[i] ^ y[i]);
    let (and, xor) = ([clear.and, differ(clear.and, set.and)], [clear.xor, differ(clear.xor, set.xor)]);
    let drawn = match b.depth {
        1 => Painter::<Tile, 2, false> { masks: &MASKS_1, and, xor }.draw(frame, b, font, j),
        2 => Painter::<Tile, 4, false> { masks: &MASKS_2, and, xor }.draw(frame, b, font, j),
        _ => Painter::<Tile, 8, false> { masks: &MASKS_4, and, xor }.draw(frame, b, font, j),
    };
    if !drawn {
        draw_in_order(frame, b, font, j, &clear, &set);
    }
}

/// Row j pixel by pixel, each bit read as memory then stands, with the operations of eight pixels that differ.
fn draw_in_order(frame: &mut [u8], b: &Blt, font: Font, j: usize, clear: &FlatTile, set: &FlatTile) {
    let (from, to) = (font.rows.at(j), b.to.at(j));
    for i in 0..b.width {
        let bit = font.skip as usize + i;
        let is_set = frame[from + bit / 8] >> (7 - bit % 8) & 1 != 0;
        let ink = if is_set { set.at(i * b.depth) } else { clear.at(i * b.depth) };
        let pixel = &mut frame[to + i * b.depth..][..b.depth];
        let mut there = [0; 4];
        there[..b.depth].copy_from_slice(pixel);
        let value = ink.apply(u32::from_le_bytes(there));
        pixel.copy_from_slice(&value.to_le_bytes()[..b.depth]);
    }
}
