//! The random tester: it makes recordings and traces, runs the programs on them, and compares all they write with the model.
//!
//! `tester PROGRAMS CASES SEED FAILED`: the folder with replay, frame and trace, how many cases, the seed, and the file that gets a
//! case that differs. `tester --large PROGRAM CASES SEED FAILED`: the same of the program for large memory. `tester --recordings FOLDER`: the
//! model on recorded buffers. `tester --streams FOLDER PROGRAM`: the program for large memory on a driver's streams.

mod bases;
mod cases;
mod counts;
mod host;
mod model;
mod programs;
#[cfg(test)]
mod shop;
mod short_ways;
mod stream;
mod tables;
mod wide;

use cases::Rng;
use counts::Counts;
use std::io::Write;
use std::path::{Path, PathBuf};
use std::process::{Command, ExitCode, Stdio};

fn main() -> ExitCode {
    let arguments: Vec<String> = std::env::args().skip(1).collect();
    let outcome = match arguments.iter().map(String::as_str).collect::<Vec<_>>()[..] {
        ["--recordings", folder] => recordings(Path::new(folder)),
        ["--streams", folder, program] => program_on_streams(Path::new(folder), Path::new(program)),
        ["--large", program, cases, seed, failed] => match (cases.parse(), seed.parse()) {
            (Ok(cases), Ok(seed)) => compare_large(Path::new(program), cases, seed, Path::new(failed)),
            _ => Err("tester: the number of cases and the seed must be numbers".to_string()),
        },
        [folder, cases, seed, failed] => match (cases.parse(), seed.parse()) {
            (Ok(cases), Ok(seed)) => compare_all(Path::new(folder), cases, seed, Path::new(failed)),
            _ => Err("tester: the number of cases and the seed must be numbers".to_string()),
        },
        _ => Err("usage: tester [--large] PROGRAMS CASES SEED FAILED | tester --recordings FOLDER | tester --streams FOLDER PROGRAM".to_string()),
    };
    match outcome {
        Ok(line) => {
            println!("{line}");
            ExitCode::SUCCESS
        }
        Err(line) => {
            println!("{line}");
            ExitCode::FAILURE
        }
    }
}

/// The programs that a case is given to, each with what it must write.
struct Case {
    input: Vec<u8>,
    expected: Vec<(&'static str, Vec<u8>)>,
}

fn make_case(rng: &mut Rng, number: u64, counts: &mut Counts) -> Case {
    counts.begin_case(number % 2 == 0);
    let (name, input) = match number % 16 {
        0 => cases::damaged_recording(rng),
        1 => cases::damaged_trace(rng),
        n if n % 2 == 0 => ("recording", cases::recording(rng)),
        _ => ("trace", cases::trace(rng)),
    };
    counts.hit(name);
    let expected = if number % 2 == 0 {
        let (lines, frame) = programs::replay(&input, counts);
        vec![("replay", lines.into_bytes()), ("frame", frame)]
    } else {
        vec![("trace", programs::trace(&input, counts).into_bytes())]
    };
    Case { input, expected }
}

fn compare_all(folder: &Path, cases: u64, seed: u64, failed: &Path) -> Result<String, String> {
    println!("tester: seed {seed}, {cases} cases");
    let mut counts = Counts::new();
    for number in 0..cases {
        let case = make_case(&mut Rng::of_case(seed, number), number, &mut counts);
        for (program, expected) in &case.expected {
            let path = folder.join(program);
            let (written, complaint) = start(&path, &case.input).map_err(|e| format!("tester: {}: {e}", path.display()))?;
            if written == *expected && complaint.is_empty() {
                continue;
            }
            let difference = first_difference(program, expected, &written, &complaint);
            keep(failed, seed, number, program, &case.input, &difference)?;
            return Err(format!(
                "{difference}tester: case {number} of seed {seed} differs; its bytes are in {}",
                failed.display()
            ));
        }
    }
    if !counts.report() {
        return Err("tester: some kinds never came up".to_string());
    }
    Ok(format!("tester: {cases} cases agree"))
}

/// Cases for large memory: the numbers, and all of frame memory.
fn compare_large(program: &Path, cases: u64, seed: u64, failed: &Path) -> Result<String, String> {
    println!("tester: seed {seed}, {cases} large cases");
    let mut kinds = wide::Kinds::new();
    for number in 0..cases {
        let text = wide::case(&mut Rng::of_case(!seed, number), number);
        let case = stream::parse(&text).ok_or("tester: a large case that cannot be read")?;
        kinds.begin_case(&case);
        let expected = programs::large(&case, &mut kinds);
        let (written, complaint) = start(program, text.as_bytes()).map_err(|e| format!("tester: {}: {e}", program.display()))?;
        if written == expected.as_bytes() && complaint.is_empty() {
            continue;
        }
        let difference = first_difference("large", expected.as_bytes(), &written, &complaint);
        let kept = format!("seed {seed}, large case {number}\n{difference}input:\n{text}");
        std::fs::write(failed, kept).map_err(|e| format!("tester: {}: {e}", failed.display()))?;
        return Err(format!("{difference}tester: large case {number} of seed {seed} differs; it is in {}", failed.display()));
    }
    if !kinds.report() {
        return Err("tester: some kinds never came up".to_string());
    }
    Ok(format!("tester: {cases} large cases agree"))
}

/// Runs a program on this standard input: what it wrote, and what else is to be said against it.
fn start(path: &Path, input: &[u8]) -> std::io::Result<(Vec<u8>, String)> {
    let mut child =
        Command::new(path).stdin(Stdio::piped()).stdout(Stdio::piped()).stderr(Stdio::piped()).spawn()?;
    let stdin = child.stdin.take();
    let output = std::thread::scope(|scope| {
        // A program that has seen enough may end before it read all; that is not judged here.
        scope.spawn(move || stdin.map(|mut pipe| pipe.write_all(input)));
        child.wait_with_output()
    })?;
    let mut complaint = String::from_utf8_lossy(&output.stderr).into_owned();
    if output.status.code().is_none() {
        complaint += &format!("ended by a signal: {}\n", output.status);
    }
    Ok((output.stdout, complaint))
}

fn first_difference(program: &str, expected: &[u8], written: &[u8], complaint: &str) -> String {
    let mut text = String::new();
    if !complaint.is_empty() {
        text += &format!("{program}: not expected beside its output: {complaint}\n");
    }
    if program == "frame" {
        if expected.len() != written.len() {
            text += &format!("frame: {} bytes expected, {} written\n", expected.len(), written.len());
        }
        if let Some(at) = (0..expected.len().min(written.len())).find(|at| expected[*at] != written[*at]) {
            text += &format!("frame: byte {at}: expected {:02x}, written {:02x}\n", expected[at], written[at]);
        }
        return text;
    }
    let expected = String::from_utf8_lossy(expected).into_owned();
    let written = String::from_utf8_lossy(written).into_owned();
    let mut wanted = expected.split_inclusive('\n');
    let mut got = written.split_inclusive('\n');
    for line in 1.. {
        match (wanted.next(), got.next()) {
            (None, None) => break,
            (a, b) if a == b => {}
            (a, b) => {
                text += &format!("{program}: line {line}\n  expected {:?}\n  written  {:?}\n", a.unwrap_or(""), b.unwrap_or(""));
                break;
            }
        }
    }
    text
}

fn keep(failed: &Path, seed: u64, number: u64, program: &str, input: &[u8], difference: &str) -> Result<(), String> {
    let mut text = format!("seed {seed}, case {number}, program {program}\n{difference}input, {} bytes in hex:\n", input.len());
    for line in input.chunks(32) {
        for byte in line {
            text += &format!("{byte:02x}");
        }
        text.push('\n');
    }
    std::fs::write(failed, text).map_err(|e| format!("tester: {}: {e}", failed.display()))
}

/// The ring of the driver's streams.
const STREAM_RING: u32 = 4_096;

/// A driver's stream: as a case, where the driver saw the reader, and frame memory as NAME.sparse says.
struct Stream {
    path: PathBuf,
    text: String,
    seen: Vec<u32>,
    frame: Vec<u8>,
}

/// Each NAME.stream of the folder with its NAME.sparse, whose first line says the length and the CRC-32 of frame memory.
fn streams(folder: &Path) -> Result<Vec<Stream>, String> {
    let whole = |path: &Path| std::fs::read_to_string(path).map_err(|e| format!("tester: {}: {e}", path.display()));
    let entries = std::fs::read_dir(folder).map_err(|e| format!("tester: {}: {e}", folder.display()))?;
    let mut all: Vec<PathBuf> = entries.flatten().map(|entry| entry.path()).collect();
    all.retain(|path| path.extension().is_some_and(|e| e == "stream"));
    all.sort();
    let mut list = Vec::new();
    for path in all {
        let kept = path.with_extension("sparse");
        let (stream, sparse) = (whole(&path)?, whole(&kept)?);
        let bad = |path: &Path| format!("tester: {}: cannot be read", path.display());
        let head: Vec<&str> = sparse.lines().next().unwrap_or("").split(' ').collect();
        let length = head.get(3).and_then(|length| length.parse().ok()).ok_or(bad(&kept))?;
        let frame = stream::frame_of(&sparse, length as usize).ok_or(bad(&kept))?;
        if head.last() != Some(&format!("{:08x}", programs::crc32(&frame)).as_str()) {
            return Err(format!("tester: {}: another CRC-32", kept.display()));
        }
        let (text, seen) = stream::of_driver(&stream, STREAM_RING, length).ok_or(bad(&path))?;
        list.push(Stream { path, text, seen, frame });
    }
    Ok(list)
}

/// Where the read pointer stands after each run.
struct Readers(Vec<u32>);

impl programs::Watch for Readers {
    fn unit(&mut self, _: &model::State, _: &[u32], _: &[u8], _: &model::State) {}

    fn call(&mut self, call: programs::Call, _: &model::State, _: &[u32], _: &model::Answer, after: &model::State) {
        if let programs::Call::Run(_) = call {
            self.0.push(after.read);
        }
    }

    fn store(&mut self, _: &model::State, _: &[u32], _: u32) {}
}

/// The model on a driver's streams: frame memory, and the reader wherever the driver saw it.
fn model_on_streams(folder: &Path) -> Result<usize, String> {
    let list = streams(folder)?;
    for stream in &list {
        let path = stream.path.display();
        let case = stream::parse(&stream.text).ok_or(format!("tester: {path}: cannot be read"))?;
        let mut readers = Readers(Vec::new());
        let told = programs::large(&case, &mut readers);
        if stream::frame_of(&told, stream.frame.len()).as_ref() != Some(&stream.frame) {
            return Err(format!("tester: {path}: another frame"));
        }
        if readers.0 != stream.seen {
            return Err(format!("tester: {path}: another reader"));
        }
        println!("{path}: frame and reader agree");
    }
    Ok(list.len())
}

/// The program for large memory on a driver's streams: frame memory, and the numbers of the model.
fn program_on_streams(folder: &Path, program: &Path) -> Result<String, String> {
    let list = streams(folder)?;
    for stream in &list {
        let path = stream.path.display();
        let case = stream::parse(&stream.text).ok_or(format!("tester: {path}: cannot be read"))?;
        let expected = programs::large(&case, &mut programs::Nobody);
        let (written, complaint) = start(program, stream.text.as_bytes()).map_err(|e| format!("tester: {}: {e}", program.display()))?;
        let text = String::from_utf8_lossy(&written);
        if stream::frame_of(&text, stream.frame.len()).as_ref() != Some(&stream.frame) {
            return Err(format!("{complaint}tester: {path}: another frame"));
        }
        if text != expected || !complaint.is_empty() {
            return Err(format!("{}tester: {path}: differs", first_difference("large", expected.as_bytes(), &written, &complaint)));
        }
        println!("{path}: {} agrees", program.display());
    }
    if list.is_empty() {
        return Err("tester: no streams".to_string());
    }
    Ok(format!("tester: {} streams agree", list.len()))
}

/// Each NAME.rec of the folder must give NAME.out and, where it is kept, NAME.frame. Each NAME.trace must give NAME.lines, or NAME.frame's
/// CRC-32 in its last line, or both, as they are kept. Then the streams.
fn recordings(folder: &Path) -> Result<String, String> {
    let whole = |path: PathBuf| std::fs::read(&path).map_err(|e| format!("tester: {}: {e}", path.display()));
    let entries = std::fs::read_dir(folder).map_err(|e| format!("tester: {}: {e}", folder.display()))?;
    let mut all: Vec<PathBuf> = entries.flatten().map(|entry| entry.path()).collect();
    all.sort();
    let named = |ending: &str| all.iter().filter(|path| path.extension().is_some_and(|e| e == ending)).collect::<Vec<_>>();
    let (names, traces) = (named("rec"), named("trace"));
    for path in &names {
        let (lines, frame) = programs::replay(&whole(path.to_path_buf())?, &mut programs::Nobody);
        if lines.into_bytes() != whole(path.with_extension("out"))? {
            return Err(format!("tester: {}: other lines", path.display()));
        }
        let kept = path.with_extension("frame");
        let compared = if kept.exists() {
            if frame != whole(kept)? {
                return Err(format!("tester: {}: another frame", path.display()));
            }
            "lines and frame agree".to_string()
        } else {
            format!("lines agree, frame_crc32={:08x}", programs::crc32(&frame))
        };
        println!("{}: {compared}", path.display());
    }
    for path in &traces {
        let lines = programs::trace(&whole(path.to_path_buf())?, &mut programs::Nobody);
        let (stored, kept) = (path.with_extension("lines"), path.with_extension("frame"));
        let (by_lines, by_frame) = (stored.exists(), kept.exists());
        if by_lines && lines.as_bytes() != whole(stored)? {
            return Err(format!("tester: {}: other lines", path.display()));
        }
        if by_frame && lines.lines().last() != Some(&format!("frame_crc32={:08x}", programs::crc32(&whole(kept)?))) {
            return Err(format!("tester: {}: another frame", path.display()));
        }
        let compared = match (by_lines, by_frame) {
            (true, true) => "lines and frame agree",
            (true, false) => "lines agree",
            (false, true) => "frame agrees",
            (false, false) => return Err(format!("tester: {}: nothing to compare with", path.display())),
        };
        println!("{}: {compared}", path.display());
    }
    if names.is_empty() && traces.is_empty() {
        return Err("tester: no recordings".to_string());
    }
    let streams = model_on_streams(folder)?;
    Ok(format!("tester: {} recordings, {} traces and {streams} streams agree", names.len(), traces.len()))
}
