//! Single calls of the proved engine, by lists of one call many times over.

use crate::TURNS;
use std::hint::black_box;
use std::time::Instant;

#[link(name = "bench", kind = "static")]
extern "C" {
    fn bench_drive(
        ring: *const u32,
        ring_length: usize,
        frame: *mut u8,
        frame_length: usize,
        kinds: *const u8,
        kinds_length: usize,
        positions: *const usize,
        positions_length: usize,
        budgets: *const u32,
        budgets_length: usize,
        retired: *mut u32,
    ) -> u64;
}

/// The name of each call, and its kind.
const CALLS: [(&str, u8); 3] = [("room", 2), ("publish", 0), ("run of budget 0", 1)];

/// How many calls are in a list.
const COUNT: usize = 1 << 14;

/// A list of calls: kind, position and budget of each.
pub struct List {
    pub kinds: Vec<u8>,
    pub positions: Vec<usize>,
    pub budgets: Vec<u32>,
}

impl List {
    pub fn new(calls: &[(u8, usize, u32)]) -> List {
        List {
            kinds: calls.iter().map(|c| c.0).collect(),
            positions: calls.iter().map(|c| c.1).collect(),
            budgets: calls.iter().map(|c| c.2).collect(),
        }
    }

    /// The same call again and again: the position is always 17, the budget 0.
    fn of(kind: u8, count: usize) -> List {
        List::new(&vec![(kind, 17, 0); count])
    }
}

/// Setup and a list of calls: the units, and the completion number.
pub fn drive(ring: &[u32], frame: &mut [u8], list: &List) -> (u64, u32) {
    let mut retired = 0;
    // The archive's function takes five runs, each as a pointer and a length, and touches nothing else but the number.
    let units = unsafe {
        bench_drive(
            ring.as_ptr(),
            ring.len(),
            frame.as_mut_ptr(),
            frame.len(),
            list.kinds.as_ptr(),
            list.kinds.len(),
            list.positions.as_ptr(),
            list.positions.len(),
            list.budgets.as_ptr(),
            list.budgets.len(),
            &mut retired,
        )
    };
    (units, retired)
}

/// A ring of 1,024 words with one fill of 4 by 2 pixels of 5Ah at byte 10, stride 16: document 01's example.
fn example() -> Vec<u32> {
    let mut ring = vec![0; 1024];
    ring[..9].copy_from_slice(&[0xFFFF, 0xF0, 10, 0, 0x10_0010, 0x4_0002, 0, 0, 0x5A]);
    ring
}

/// Whether the example in two runs does its nine units, and lists that do not serve do nothing.
pub fn agree() -> Result<(), String> {
    let (ring, mut frame) = (example(), vec![0; 64]);
    let mut list = List::new(&[(0, 17, 0), (1, 0, 4), (2, 0, 0), (1, 0, 100), (3, 0, 0)]);
    let told = drive(&ring, &mut frame, &list);
    let drawn = (0..64).all(|i| (frame[i] == 0x5A) == matches!(i, 10..=13 | 26..=29));
    list.budgets.pop();
    let short = drive(&ring, &mut frame, &list);
    match (told, drawn, short) {
        ((9, 1), true, (0, 0)) => Ok(()),
        _ => Err(format!("a list of calls tells {told:?}, drawn {drawn}, a short one {short:?}")),
    }
}

/// Seconds that a list takes, done so often.
fn seconds(ring: &[u32], frame: &mut [u8], list: &List, times: usize) -> f64 {
    let start = Instant::now();
    for _ in 0..times {
        black_box(drive(black_box(ring), frame, black_box(list)));
    }
    start.elapsed().as_secs_f64() / times as f64
}

/// Prints the nanoseconds of each call: of the turn with this rank, the fastest being 0. The time of an empty list is taken off.
pub fn measure(rank: usize) {
    let (ring, mut frame) = (example(), vec![0; 64]);
    println!("{:22} {:>12}", "call", "ours ns");
    for (name, kind) in CALLS {
        let (list, none) = (List::of(kind, COUNT), List::of(kind, 0));
        let mut turns = [0.0; TURNS];
        for turn in &mut turns {
            let empty = seconds(&ring, &mut frame, &none, COUNT);
            *turn = (seconds(&ring, &mut frame, &list, 1) - empty) * 1e9 / COUNT as f64;
        }
        turns.sort_by(f64::total_cmp);
        println!("{name:22} {:>12.1}", turns[rank]);
    }
}
