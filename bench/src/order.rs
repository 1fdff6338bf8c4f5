//! Pixel by pixel, in order: for a row that reads what it has written. Cells let the two parts of frame memory overlap.

use crate::raster::Operation;
use std::cell::Cell;

/// Two rows of one length in frame memory, in bytes, and the direction of their columns.
#[derive(Clone, Copy)]
pub struct Pair {
    pub from: usize,
    pub to: usize,
    pub bytes: usize,
    pub left: bool,
}

impl Pair {
    /// Whether a copy, in its order, may meet a byte that it has overwritten.
    #[inline]
    pub fn smears(self) -> bool {
        let ahead = if self.left { self.from.wrapping_sub(self.to) } else { self.to.wrapping_sub(self.from) };
        ahead != 0 && ahead < self.bytes
    }

    /// Both rows as cells.
    #[inline]
    fn cells(self, frame: &mut [u8]) -> (&[Cell<u8>], &[Cell<u8>]) {
        let low = self.from.min(self.to);
        let high = self.from.max(self.to) + self.bytes;
        let cells = Cell::from_mut(&mut frame[low..high]).as_slice_of_cells();
        (&cells[self.from - low..][..self.bytes], &cells[self.to - low..][..self.bytes])
    }
}

#[inline]
fn get<const DEPTH: usize>(pixel: &[Cell<u8>]) -> u32 {
    let mut bytes = [0; 4];
    for i in 0..DEPTH {
        bytes[i] = pixel[i].get();
    }
    u32::from_le_bytes(bytes)
}

#[inline]
fn put<const DEPTH: usize>(pixel: &[Cell<u8>], value: u32) {
    let bytes = value.to_le_bytes();
    for i in 0..DEPTH {
        pixel[i].set(bytes[i]);
    }
}

fn copy_pixels<const DEPTH: usize>(frame: &mut [u8], pair: Pair) {
    let (from, to) = pair.cells(frame);
    let pixels = from.chunks_exact(DEPTH).zip(to.chunks_exact(DEPTH));
    if pair.left {
        pixels.rev().for_each(|(f, t)| put::<DEPTH>(t, get::<DEPTH>(f)));
    } else {
        pixels.for_each(|(f, t)| put::<DEPTH>(t, get::<DEPTH>(f)));
    }
}

/// Copies a row.
#[inline(never)]
pub fn copy(frame: &mut [u8], depth: usize, pair: Pair) {
    match depth {
        1 => copy_pixels::<1>(frame, pair),
        2 => copy_pixels::<2>(frame, pair),
        _ => copy_pixels::<4>(frame, pair),
    }
}

fn combine_pixels<const DEPTH: usize>(frame: &mut [u8], pair: Pair, operation: &impl Operation) {
    let (from, to) = pair.cells(frame);
    let pixels = from.chunks_exact(DEPTH).zip(to.chunks_exact(DEPTH)).enumerate();
    let one = |(i, (f, t)): (usize, (&[Cell<u8>], &[Cell<u8>]))| {
        put::<DEPTH>(t, operation.at(i * DEPTH).apply(get::<DEPTH>(f), get::<DEPTH>(t)));
    };
    if pair.left {
        pixels.rev().for_each(one);
    } else {
        pixels.for_each(one);
    }
}

/// Combines a row with its source.
#[inline(never)]
pub fn combine(frame: &mut [u8], depth: usize, pair: Pair, operation: &impl Operation) {
    match depth {
        1 => combine_pixels::<1>(frame, pair, operation),
        2 => combine_pixels::<2>(frame, pair, operation),
        _ => combine_pixels::<4>(frame, pair, operation),
    }
}
