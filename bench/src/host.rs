//! Pictures that come through the ring: which pixels a data command feeds, and the rectangles that these make.

use crate::blt::{self, Blt, Pattern, Rows, Source};
use crate::engine::{Registers, Table, BLT_MODE, RASTER_MODE, SRC_OFFSET, WID_HEIGHT};
use crate::raster;
use crate::text::Font;

/// Where the pixels lie in the bits of all the words that a BLT takes, the highest bit of each byte first: the bit of the first
/// pixel, the bits from row to row, and those of a pixel.
#[derive(Clone, Copy)]
pub struct Layout {
    first: usize,
    pitch: usize,
    pixel: usize,
}

impl Layout {
    /// Of colours, and of bits that are not packed, each row begins a word; of packed bits the byte after the last one.
    #[inline(never)]
    pub fn of(r: &Registers, width: usize, depth: usize) -> Layout {
        let mode = r[BLT_MODE] & 0xC0;
        let first = 8 * (r[SRC_OFFSET] & 3) as usize;
        let skip = if mode == 0 { 0 } else { (r[SRC_OFFSET] >> 26 & 7) as usize };
        let pixel = if mode == 0 { 8 * depth } else { 1 };
        let bits = skip + width * pixel;
        let pitch = if mode == 0x80 { bits.next_multiple_of(8) } else { (first + bits).next_multiple_of(32) };
        Layout { first: first + skip, pitch, pixel }
    }
}

/// Whether some pixel of a colour source would straddle two words.
#[inline(never)]
pub fn straddles(r: &Registers, depth: usize) -> bool {
    let (byte, width, height) = (r[SRC_OFFSET] & 3, r[WID_HEIGHT] >> 16 & 0xFFF, r[WID_HEIGHT] & 0xFFF);
    let some = match depth {
        1 => false,
        2 => byte == 3 || byte == 1 && width > 1,
        _ => byte != 0,
    };
    some && width != 0 && height != 0
}

/// A BLT that wants data, and how much of it has come: words, and pixels that these fed.
pub struct Host {
    blt: Blt<'static>,
    layout: Layout,
    words: usize,
    drawn: usize,
}

impl Host {
    #[inline]
    pub fn new(blt: Blt<'static>, layout: Layout) -> Host {
        Host { blt, layout, words: 0, drawn: 0 }
    }

    /// Whether the picture is whole.
    #[inline]
    pub fn is_whole(&self) -> bool {
        self.drawn == self.blt.width * self.blt.height
    }

    /// How many pixels the first so many words feed. There is at least one word.
    #[inline]
    fn fed(&self, words: usize) -> usize {
        let (Layout { first, pitch, pixel }, width, height) = (self.layout, self.blt.width, self.blt.height);
        if 32 * words >= first + pitch * (height - 1) + pixel * width {
            return width * height;
        }
        let last = 32 * words - 1 - first;
        last / pitch * width + (last % pitch / pixel + 1).min(width)
    }

    /// Draws what these words feed: the rest of a row, whole rows, and the first part of one. Answers how many pixels.
    pub fn feed(&mut self, frame: &mut [u8], words: &[u32], r: &Registers, table: &Table, bytes: &mut Vec<u8>) -> u32 {
        let (first, end, width) = (self.drawn, self.fed(self.words + words.len()), self.blt.width);
        while self.drawn < end {
            let (row, column, left) = (self.drawn / width, self.drawn % width, end - self.drawn);
            let (wide, high) = if column == 0 && left >= width { (width, left / width) } else { (left.min(width - column), 1) };
            let part = self.blt.part(column, row, wide, high);
            let at = self.layout.first + self.layout.pitch * row + self.layout.pixel * column - 32 * self.words;
            let data = Data { words, at, pitch: self.layout.pitch, mono: self.layout.pixel == 1 };
            data.draw(frame, part, r, table, bytes);
            self.drawn += wide * high;
        }
        self.words += words.len();
        (end - first) as u32
    }
}

/// The rows of a rectangle in the words of a data command: the bit of the first pixel, and the bits from row to row.
struct Data<'a> {
    words: &'a [u32],
    at: usize,
    pitch: usize,
    mono: bool,
}

impl Data<'_> {
    #[inline]
    fn draw(&self, frame: &mut [u8], b: Blt, r: &Registers, table: &Table, bytes: &mut Vec<u8>) {
        let code = r[RASTER_MODE];
        let holes = matches!(b.pattern, Pattern::Mono) && code & 0x400 != 0;
        if !self.mono && !raster::reads_source(code) {
            blt::draw(frame, &Blt { source: Source::Color, ..b }, r, table);
        } else if !self.mono && code & 0xFF == 0xCC && !holes && !b.left {
            self.copy(frame, &b);
        } else if b.left {
            self.draw_turned(frame, b, r, table);
        } else {
            self.draw_bytes(frame, b, r, table, bytes);
        }
    }

    /// Copies straight out of the ring.
    #[inline(never)]
    fn copy(&self, frame: &mut [u8], b: &Blt) {
        let (n, skip, step) = (b.width * b.depth, self.at / 8 % 4, self.pitch / 32);
        for j in 0..b.height {
            let to = b.to.at(j);
            raster::copy_words(&mut frame[to..to + n], &self.words[self.at / 32 + step * j..], skip);
        }
    }

    /// Takes the words as bytes, and then as a source in frame memory.
    #[inline(never)]
    fn draw_bytes(&self, frame: &mut [u8], b: Blt, r: &Registers, table: &Table, bytes: &mut Vec<u8>) {
        let last = self.at + self.pitch * (b.height - 1) + if self.mono { b.width } else { 8 * b.width * b.depth } - 1;
        let words = &self.words[self.at / 32..last / 32 + 1];
        if bytes.len() < 4 * words.len() {
            bytes.resize(4 * words.len(), 0);
        }
        raster::copy_words(&mut bytes[..4 * words.len()], words, 0);
        let rows = Rows { first: self.at / 8 % 4, step: self.pitch as isize / 8 };
        let source = if self.mono {
            let skip = self.at % 8;
            Source::Bits(Font { rows, bytes: (skip + b.width).div_ceil(8), skip: skip as u32 })
        } else {
            Source::Frame(rows)
        };
        blt::draw(frame, &Blt { source, data: Some(bytes), ..b }, r, table);
    }

    /// With X negative the first pixel that comes is the rightmost: pixel by pixel into rows that begin with the last one.
    #[cold]
    fn draw_turned(&self, frame: &mut [u8], b: Blt, r: &Registers, table: &Table) {
        let step = if self.mono { b.width.div_ceil(8) } else { b.width * b.depth };
        let mut bytes = vec![0; step * b.height];
        for (j, row) in bytes.chunks_exact_mut(step).enumerate() {
            for i in 0..b.width {
                let at = self.at + self.pitch * j + if self.mono { i } else { 8 * b.depth * i };
                let (to, word) = (b.width - 1 - i, self.words[at / 32]);
                if self.mono {
                    let bit = word >> (at % 32 / 8 * 8 + 7 - at % 8) & 1;
                    row[to / 8] |= (bit as u8) << (7 - to % 8);
                } else {
                    row[to * b.depth..][..b.depth].copy_from_slice(&(word >> (at % 32)).to_le_bytes()[..b.depth]);
                }
            }
        }
        let rows = Rows { first: 0, step: step as isize };
        let source = if self.mono { Source::Bits(Font { rows, bytes: step, skip: 0 }) } else { Source::Frame(rows) };
        blt::draw(frame, &Blt { source, data: Some(&bytes), ..b }, r, table);
    }
}
