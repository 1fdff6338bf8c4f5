//! A vector: its bounds, and its pixels one after the other.

use crate::engine::{depth_of, place_to, Registers};
use crate::engine::{CH3_MODE_STR, PAT_COLOR_0, RASTER_MODE, SRC_COLOR_FG, SRC_OFFSET, STRIDE, VECTOR_MODE, WID_HEIGHT};
use crate::raster::Flat;

pub struct Vector {
    depth: usize,
    pub length: u32,
    /// Where its first pixel begins.
    place: i64,
    /// Bytes of a step along the major and the minor axis.
    major: i64,
    minor: i64,
    axial: i32,
    diagonal: i32,
    error: i32,
    op: Flat,
}

impl Vector {
    /// The vector that the registers describe, or the number that refuses it.
    pub fn judged(r: &Registers, frame: usize) -> Result<Vector, u32> {
        let depth = depth_of(r[RASTER_MODE])?;
        if r[RASTER_MODE] & 0x3B00 != 0 || r[CH3_MODE_STR] >> 31 != 0 {
            return Err(24);
        }
        let length = r[WID_HEIGHT] >> 16 & 0xFFF;
        if length == 0 {
            return Err(25);
        }
        let (axial, diagonal) = ((r[SRC_OFFSET] >> 16) as i16 as i32, r[SRC_OFFSET] as i16 as i32);
        if axial < 0 || diagonal > 0 {
            return Err(26);
        }
        let mode = r[VECTOR_MODE];
        let (x, y) = (depth as i64, (r[STRIDE] & 0xFFFF) as i64);
        let (major, minor) = if mode & 1 != 0 { (y, x) } else { (x, y) };
        let op = Flat::of(r[RASTER_MODE], r[PAT_COLOR_0], r[SRC_COLOR_FG]);
        let v = Vector {
            depth,
            length,
            place: place_to(r),
            major: if mode & 2 != 0 { major } else { -major },
            minor: if mode & 4 != 0 { minor } else { -minor },
            axial,
            diagonal,
            error: r[WID_HEIGHT] as i16 as i32,
            op,
        };
        if v.lies_in(frame) {
            Ok(v)
        } else {
            Err(27)
        }
    }

    /// Whether every pixel lies in frame memory: by the box of its two ends, and pixel by pixel where that leaves it open.
    fn lies_in(&self, frame: usize) -> bool {
        let steps = self.length as i64 - 1;
        let most = frame as i64 - self.depth as i64;
        let along = steps * self.major;
        let boxed = |across: i64| {
            let low = self.place + along.min(0) + across.min(0);
            let high = self.place + along.max(0) + across.max(0);
            low >= 0 && high <= most
        };
        boxed(steps * self.minor) || boxed(self.diagonals() * self.minor) || self.walks_in(most)
    }

    /// How many of its steps are diagonal. Once the error is between the two terms it stays there.
    fn diagonals(&self) -> i64 {
        let (mut steps, mut error, mut count) = (self.length as i64 - 1, self.error as i64, 0);
        let (axial, diagonal) = (self.axial as i64, self.diagonal as i64);
        if error < diagonal {
            let first = if axial == 0 { steps } else { steps.min((diagonal - error + axial - 1) / axial) };
            steps -= first;
            error += first * axial;
        } else if error >= axial {
            count = if diagonal == 0 { steps } else { steps.min((error - axial) / -diagonal + 1) };
            steps -= count;
            error += count * diagonal;
        }
        if steps == 0 {
            return count;
        }
        count + (error + steps * axial - diagonal) / (axial - diagonal)
    }

    fn walks_in(&self, most: i64) -> bool {
        let (mut at, mut error) = (self.place, self.error);
        for _ in 0..self.length {
            if at < 0 || at > most {
                return false;
            }
            let diagonal = error >= 0;
            at += if diagonal { self.major + self.minor } else { self.major };
            error += if diagonal { self.diagonal } else { self.axial };
        }
        true
    }
}

pub fn draw(frame: &mut [u8], v: &Vector) {
    match v.depth {
        1 => pixels::<1>(frame, v),
        2 => pixels::<2>(frame, v),
        _ => pixels::<4>(frame, v),
    }
}

fn pixels<const DEPTH: usize>(frame: &mut [u8], v: &Vector) {
    if v.op.and == 0 {
        walk::<DEPTH>(frame, v, |p| put(p, v.op.xor));
    } else {
        walk::<DEPTH>(frame, v, |p| put(p, v.op.apply(get(p))));
    }
}

#[inline]
fn walk<const DEPTH: usize>(frame: &mut [u8], v: &Vector, mut paint: impl FnMut(&mut [u8; DEPTH])) {
    let (axial, diagonal) = (v.major as isize, (v.major + v.minor) as isize);
    let (mut at, mut error) = (v.place as usize, v.error);
    for _ in 0..v.length {
        if let Some(p) = frame.get_mut(at..).and_then(|rest| rest.first_chunk_mut()) {
            paint(p);
        }
        let back = error < 0;
        at = at.wrapping_add_signed(if back { axial } else { diagonal });
        error += if back { v.axial } else { v.diagonal };
    }
}

#[inline]
fn get<const DEPTH: usize>(p: &[u8; DEPTH]) -> u32 {
    let mut bytes = [0; 4];
    bytes[..DEPTH].copy_from_slice(p);
    u32::from_le_bytes(bytes)
}

#[inline]
fn put<const DEPTH: usize>(p: &mut [u8; DEPTH], value: u32) {
    p.copy_from_slice(&value.to_le_bytes()[..DEPTH]);
}
