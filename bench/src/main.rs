//! The bench: the proved engine beside a plain one. Frame memory is compared first, then both are timed.
//!
//! `bench [--compare | --best] [WORD]`: only kinds with the word in their name; with --compare nothing is timed; with --best
//! the fastest turn counts in place of the median, for a machine that does other work beside.

mod blt;
mod calls;
mod engine;
mod host;
mod large;
mod mixed;
mod order;
mod plain;
mod raster;
mod text;
mod vector;
mod workloads;

use engine::Told;
use std::path::Path;
use std::process::ExitCode;
use std::time::Instant;
use workloads::Case;

#[link(name = "bench", kind = "static")]
extern "C" {
    fn bench_draw(
        ring: *const u32,
        ring_length: usize,
        frame: *mut u8,
        frame_length: usize,
        write: usize,
        budget: u32,
        retired: *mut u32,
        number: *mut u32,
    ) -> u32;
}

/// The proved engine.
fn ours(case: &Case, frame: &mut [u8]) -> Told {
    let (ring, mut told) = (&case.ring[..], Told::default());
    if let Some(list) = &case.list {
        let (units, retired) = calls::drive(ring, frame, list);
        return Told { units: units as u32, retired, number: 0 };
    }
    // The archive's function takes two runs, each as a pointer and a length, and touches nothing else but the two numbers.
    told.units = unsafe {
        bench_draw(
            ring.as_ptr(),
            ring.len(),
            frame.as_mut_ptr(),
            frame.len(),
            case.write,
            u32::MAX,
            &mut told.retired,
            &mut told.number,
        )
    };
    told
}

/// The rival.
fn rust(case: &Case, frame: &mut [u8]) -> Told {
    match &case.list {
        Some(list) => engine::drive(&case.ring, frame, list),
        None => engine::draw(&case.ring, frame, case.write),
    }
}

type Draw = fn(&Case, &mut [u8]) -> Told;

const ENGINES: [Draw; 2] = [ours, rust];

const TURNS: usize = 9;
const TURN: f64 = 1.5e-3;

/// Frame memory that begins at a multiple of 4,096 bytes.
struct Memory {
    bytes: Vec<u8>,
    first: usize,
}

impl Memory {
    fn new(length: usize) -> Memory {
        let bytes = vec![0; length + 4096];
        let first = bytes.as_ptr().align_offset(4096);
        Memory { bytes, first }
    }

    fn frame(&mut self, length: usize) -> &mut [u8] {
        &mut self.bytes[self.first..self.first + length]
    }

    /// Frame memory as it is before a case.
    fn begin(&mut self, case: &Case, start: &[u8]) -> &mut [u8] {
        let frame = self.frame(case.frame);
        frame.copy_from_slice(&start[..case.frame]);
        frame
    }
}

fn main() -> ExitCode {
    let arguments: Vec<String> = std::env::args().skip(1).collect();
    let (option, word) = match arguments.iter().map(String::as_str).collect::<Vec<_>>()[..] {
        [] => ("", ""),
        [option @ ("--compare" | "--best")] => (option, ""),
        [option @ ("--compare" | "--best"), word] => (option, word),
        [word] if !word.starts_with('-') => ("", word),
        _ => {
            println!("usage: bench [--compare | --best] [WORD]");
            return ExitCode::FAILURE;
        }
    };
    run(option, word)
}

fn run(option: &str, word: &str) -> ExitCode {
    let mut cases = workloads::all(word);
    cases.extend(workloads::recordings(Path::new("recordings"), word));
    let mut mixed = mixed::all(word);
    mixed.extend(large::all(word));
    let longest = cases.iter().chain(&mixed).map(|c| c.frame).max().unwrap_or(0);
    let start = workloads::start(longest);
    let mut memories = [Memory::new(longest), Memory::new(longest)];
    for case in cases.iter_mut().chain(&mut mixed) {
        if let Err(line) = agree(case, &start, &mut memories) {
            println!("bench: {} {} bits {}: {line}", case.kind, case.bits, case.size);
            return ExitCode::FAILURE;
        }
    }
    if let Err(line) = calls::agree() {
        println!("bench: {line}");
        return ExitCode::FAILURE;
    }
    if cases.len() + mixed.len() == 0 {
        println!("bench: no kind has {word} in its name");
        return ExitCode::FAILURE;
    }
    if option != "--compare" {
        let rank = if option == "--best" { 0 } else { TURNS / 2 };
        measure(&cases, &start, &mut memories, rank);
        if "calls alone".contains(word) {
            calls::measure(rank);
        }
        if "colour F0".contains(word) {
            plain::measure_colors(rank);
        }
        if "host CC".contains(word) {
            plain::measure_copies(rank);
        }
    }
    println!("bench: {} rings drawn, frame memory the same", cases.len() + mixed.len());
    ExitCode::SUCCESS
}

/// Draws a case once with both engines, from the same frame memory. A mixed one learns how much of it is drawn.
fn agree(case: &mut Case, start: &[u8], memories: &mut [Memory; 2]) -> Result<(), String> {
    let mut told = [Told::default(); 2];
    for i in 0..2 {
        told[i] = ENGINES[i](case, memories[i].begin(case, start));
    }
    if told[0] != told[1] {
        return Err(format!("ours tells {:?}, the other {:?}", told[0], told[1]));
    }
    let [first, second] = memories;
    let (first, second) = (first.frame(case.frame), second.frame(case.frame));
    if first != second {
        let at = first.iter().zip(second.iter()).position(|(x, y)| x != y).unwrap();
        return Err(format!("byte {at} of frame memory differs"));
    }
    if case.mixed {
        case.commands = told[0].retired.max(1) as usize;
        case.pixels = (told[0].units as usize).saturating_sub(case.commands);
        return Ok(());
    }
    let retired = case.commands + case.loads;
    if told[0] != (Told { units: (retired + case.data + case.pixels) as u32, retired: retired as u32, number: 0 }) {
        return Err(format!("not all of it is drawn: {:?}", told[0]));
    }
    Ok(())
}

// ---- times

fn seconds(draw: Draw, case: &Case, frame: &mut [u8], times: usize) -> f64 {
    let start = Instant::now();
    for _ in 0..times {
        std::hint::black_box(draw(std::hint::black_box(case), frame));
    }
    start.elapsed().as_secs_f64()
}

/// Nanoseconds a command of both engines, of turns that alternate: of the one with this rank, the fastest being 0.
fn times(case: &Case, start: &[u8], memories: &mut [Memory; 2], rank: usize) -> [f64; 2] {
    let mut repeats = [1; 2];
    for i in 0..2 {
        let frame = memories[i].begin(case, start);
        seconds(ENGINES[i], case, frame, 1);
        let once = seconds(ENGINES[i], case, frame, 1);
        repeats[i] = (TURN / once).ceil().clamp(1.0, 1e6) as usize;
    }
    let mut turns = [[0.0; TURNS]; 2];
    for turn in 0..TURNS {
        for i in 0..2 {
            let frame = memories[i].frame(case.frame);
            let time = seconds(ENGINES[i], case, frame, repeats[i]);
            turns[i][turn] = time * 1e9 / (repeats[i] * case.commands) as f64;
        }
    }
    turns.map(|mut t| {
        t.sort_by(f64::total_cmp);
        t[rank]
    })
}

fn measure(cases: &[Case], start: &[u8], memories: &mut [Memory; 2], rank: usize) {
    println!("{:22} {:>4} {:>10} {:>12} {:>12} {:>6} {:>9}", "kind", "bits", "size", "ours ns", "Rust ns", "ratio", "ns/pixel");
    let mut worst: Vec<(&str, f64)> = Vec::new();
    for case in cases {
        let [ours, rust] = times(case, start, memories, rank);
        let ratio = ours / rust;
        let pixel = ours * case.commands as f64 / case.pixels.max(1) as f64;
        println!(
            "{:22} {:>4} {:>10} {:>12.1} {:>12.1} {:>6.2} {:>9.3}",
            case.kind, case.bits, case.size, ours, rust, ratio, pixel
        );
        match worst.last_mut() {
            Some((kind, most)) if *kind == case.kind => *most = most.max(ratio),
            _ => worst.push((&case.kind, ratio)),
        }
    }
    println!("the largest ratio of each kind:");
    worst.iter().for_each(|(kind, ratio)| println!("{kind:22} {ratio:.2}"));
}
