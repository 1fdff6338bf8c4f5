//! The engine as a program for large memory: a case as `stream.rs` says on standard input, what came out on standard output. It links
//! `target/staticlib/libbench.a`; `tester/run` builds it. Frame memory begins with zeros.

mod stream;

use std::io::Read;
use std::process::ExitCode;
use stream::Case;

#[link(name = "bench", kind = "static")]
extern "C" {
    fn bench_draw(
        ring: *const u32,
        ring_length: usize,
        frame: *mut u8,
        frame_length: usize,
        write: usize,
        budget: u32,
        retired: *mut u32,
        number: *mut u32,
    ) -> u32;

    fn bench_drive(
        ring: *const u32,
        ring_length: usize,
        frame: *mut u8,
        frame_length: usize,
        kinds: *const u8,
        kinds_length: usize,
        positions: *const usize,
        positions_length: usize,
        budgets: *const u32,
        budgets_length: usize,
        retired: *mut u32,
    ) -> u64;
}

fn draw(case: &Case, frame: &mut [u8], position: u32, budget: u32) -> String {
    let (mut retired, mut number) = (0, 0);
    // The archive's function takes two runs, each as a pointer and a length, and touches nothing else but the two numbers.
    let units = unsafe {
        bench_draw(
            case.ring.as_ptr(),
            case.ring.len(),
            frame.as_mut_ptr(),
            frame.len(),
            position as usize,
            budget,
            &mut retired,
            &mut number,
        )
    };
    stream::told(u64::from(units), retired, Some(number), frame)
}

fn drive(case: &Case, frame: &mut [u8]) -> String {
    let kinds: Vec<u8> = case.calls.iter().map(|call| call.0).collect();
    let positions: Vec<usize> = case.calls.iter().map(|call| call.1 as usize).collect();
    let budgets: Vec<u32> = case.calls.iter().map(|call| call.2).collect();
    let mut retired = 0;
    // The archive's function takes five runs, each as a pointer and a length, and touches nothing else but the number.
    let units = unsafe {
        bench_drive(
            case.ring.as_ptr(),
            case.ring.len(),
            frame.as_mut_ptr(),
            frame.len(),
            kinds.as_ptr(),
            kinds.len(),
            positions.as_ptr(),
            positions.len(),
            budgets.as_ptr(),
            budgets.len(),
            &mut retired,
        )
    };
    stream::told(units, retired, None, frame)
}

fn main() -> ExitCode {
    let mut text = String::new();
    if let Err(error) = std::io::stdin().read_to_string(&mut text) {
        eprintln!("large: {error}");
        return ExitCode::FAILURE;
    }
    let Some(case) = stream::parse(&text) else {
        eprintln!("large: the case cannot be read");
        return ExitCode::FAILURE;
    };
    let mut frame = vec![0; case.frame_len as usize];
    let told = match case.draw {
        Some((position, budget)) => draw(&case, &mut frame, position, budget),
        None => drive(&case, &mut frame),
    };
    print!("{told}");
    ExitCode::SUCCESS
}
