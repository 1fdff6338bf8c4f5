//! Plain loops with no command around them: what a row for colour patterns has to be faster than to be worth it, and what a
//! picture costs at least that comes through a ring.

use crate::TURNS;
use std::hint::black_box;
use std::time::Instant;

const SIDE: usize = 64;

/// Fills a rectangle of 64 by 64 pixels, its rows one after the other, from a row and a column of the tile on.
#[inline(never)]
fn fill(frame: &mut [u8], depth: usize, tile: &[[u32; 8]; 8], row: usize, column: usize) {
    for (j, line) in frame.chunks_exact_mut(SIDE * depth).take(SIDE).enumerate() {
        let colors = &tile[(row + j) % 8];
        let color = |i: usize| colors[(column + i) % 8];
        match depth {
            1 => line.iter_mut().enumerate().for_each(|(i, p)| *p = color(i) as u8),
            2 => line.chunks_exact_mut(2).enumerate().for_each(|(i, p)| p.copy_from_slice(&(color(i) as u16).to_le_bytes())),
            _ => line.chunks_exact_mut(4).enumerate().for_each(|(i, p)| p.copy_from_slice(&color(i).to_le_bytes())),
        }
    }
}

/// Copies rows of so many bytes, a multiple of four, out of the words of a ring to rows a stride apart.
#[inline(never)]
fn copy(frame: &mut [u8], stride: usize, words: &[u32], bytes: usize) {
    for (line, words) in frame.chunks_exact_mut(stride).zip(words.chunks_exact(bytes / 4)) {
        line[..bytes].chunks_exact_mut(4).zip(words).for_each(|(to, word)| to.copy_from_slice(&word.to_le_bytes()));
    }
}

/// Nanoseconds of one of 1,024 times: of the turn with this rank.
fn nanoseconds(rank: usize, mut once: impl FnMut(usize)) -> f64 {
    let mut turns = [0.0; TURNS];
    for turn in &mut turns {
        let start = Instant::now();
        (0..1024).for_each(&mut once);
        *turn = start.elapsed().as_secs_f64() * 1e9 / 1024.0;
    }
    turns.sort_by(f64::total_cmp);
    turns[rank]
}

/// Prints the nanoseconds of one such fill at each depth.
pub fn measure_colors(rank: usize) {
    let tile: [[u32; 8]; 8] = std::array::from_fn(|y| std::array::from_fn(|x| (8 * y + x) as u32 * 0x0103_0507));
    let mut frame = vec![0; SIDE * SIDE * 4];
    println!("{:22} {:>4} {:>25}", "plain colour loop", "bits", "Rust ns");
    for depth in [1, 2, 4] {
        let time = nanoseconds(rank, |i| fill(black_box(&mut frame), depth, black_box(&tile), i % 8, i / 8 % 8));
        println!("{:22} {:>4} {:>25.1}", "64 x 64", 8 * depth, time);
    }
}

/// Prints the nanoseconds of a copy of 64 by 64 pixels out of a ring to a screen, at each depth: of all, and of a pixel.
pub fn measure_copies(rank: usize) {
    let ring: Vec<u32> = (0..16384).map(|i| i * 0x0103_0507).collect();
    println!("{:22} {:>4} {:>25} {:>16}", "plain copy of words", "bits", "Rust ns", "ns/pixel");
    for depth in [1, 2, 4] {
        let (stride, bytes) = (1024 * depth, SIDE * depth);
        let (mut frame, words) = (vec![0; 2 * SIDE * stride], SIDE * bytes / 4);
        let time = nanoseconds(rank, |i| {
            let (to, from) = (i * 8 % 64 * stride, i * 997 % (16384 - words));
            copy(black_box(&mut frame[to..to + SIDE * stride]), stride, black_box(&ring[from..from + words]), bytes);
        });
        println!("{:22} {:>4} {:>25.1} {:>16.3}", "64 x 64", 8 * depth, time, time / (SIDE * SIDE) as f64);
    }
}
