//! W6: cases for large memory as text, and what comes out of them. `large` and the model both read and write this.
//!
//! A case has the lines `ring LENGTH` and `frame LENGTH`, then any of
//!
//! - `w POSITION WORD WORD ...`: ring words one behind the other, hexadecimal; the others are 0
//! - `draw POSITION BUDGET`: setup, one publish and one run
//! - `p POSITION`, `r BUDGET`, `a`, `s`: after setup a list of calls: publish, run, ask for room, restart
//!
//! What comes out: a line for each number, then the bytes of frame memory that are not 0, one line for each run of them, offset and bytes in
//! hexadecimal.

pub const PUBLISH: u8 = 0;
pub const RUN: u8 = 1;
pub const ROOM: u8 = 2;
pub const RESTART: u8 = 3;

pub struct Case {
    pub ring: Vec<u32>,
    pub frame_len: u32,
    /// position and budget
    pub draw: Option<(u32, u32)>,
    /// where there is no `draw`: each call's kind, position and budget
    pub calls: Vec<(u8, u32, u32)>,
}

/// A case's text; none where it says no such thing.
pub fn parse(text: &str) -> Option<Case> {
    let mut case = Case { ring: Vec::new(), frame_len: 0, draw: None, calls: Vec::new() };
    for line in text.lines() {
        let mut words = line.split_ascii_whitespace();
        let name = words.next()?;
        if name == "w" {
            let first = words.next()?.parse::<usize>().ok()?;
            for (i, word) in words.enumerate() {
                *case.ring.get_mut(first + i)? = u32::from_str_radix(word, 16).ok()?;
            }
            continue;
        }
        let numbers = words.map(str::parse).collect::<Result<Vec<u32>, _>>().ok()?;
        match (name, &numbers[..]) {
            ("ring", [length]) => case.ring = vec![0; *length as usize],
            ("frame", [length]) => case.frame_len = *length,
            ("draw", [position, budget]) => case.draw = Some((*position, *budget)),
            ("p", [position]) => case.calls.push((PUBLISH, *position, 0)),
            ("r", [budget]) => case.calls.push((RUN, 0, *budget)),
            ("a", []) => case.calls.push((ROOM, 0, 0)),
            ("s", []) => case.calls.push((RESTART, 0, 0)),
            _ => return None,
        }
    }
    Some(case)
}

/// What a case gives; a list of calls does not tell the number.
pub fn told(units: u64, retired: u32, number: Option<u32>, frame: &[u8]) -> String {
    let mut text = format!("units={units}\nretired={retired}\n");
    if let Some(number) = number {
        text += &format!("number={number}\n");
    }
    const ZEROS: [u8; 4_096] = [0; 4_096];
    let mut inside = false;
    for (i, part) in frame.chunks(ZEROS.len()).enumerate() {
        if part == &ZEROS[..part.len()] {
            text += if inside { "\n" } else { "" };
            inside = false;
            continue;
        }
        for (j, byte) in part.iter().enumerate() {
            if *byte == 0 {
                text += if inside { "\n" } else { "" };
            } else if inside {
                text += &format!("{byte:02x}");
            } else {
                text += &format!("{:x} {byte:02x}", ZEROS.len() * i + j);
            }
            inside = *byte != 0;
        }
    }
    text + if inside { "\n" } else { "" }
}

/// Frame memory of this length with these runs, the other bytes 0; lines of numbers and comments are passed over.
#[allow(dead_code)]
pub fn frame_of(text: &str, length: usize) -> Option<Vec<u8>> {
    let mut frame = vec![0; length];
    for line in text.lines().filter(|line| !line.starts_with('#') && !line.contains('=')) {
        let (offset, bytes) = line.split_once(' ')?;
        let offset = usize::from_str_radix(offset, 16).ok()?;
        for i in 0..bytes.len() / 2 {
            *frame.get_mut(offset + i)? = u8::from_str_radix(bytes.get(2 * i..2 * i + 2)?, 16).ok()?;
        }
    }
    Some(frame)
}

/// A driver's stream (`w POSITION WORD`, `p POSITION`, `d POSITION`) as a case, each publish followed by a run of the largest budget, and the
/// positions at which the driver saw the reader after them. None where a position is stored twice: its words could not all be lent at once.
#[allow(dead_code)]
pub fn of_driver(stream: &str, ring_len: u32, frame_len: u32) -> Option<(String, Vec<u32>)> {
    let mut text = format!("ring {ring_len}\nframe {frame_len}\n");
    let (mut stored, mut seen) = (std::collections::BTreeSet::new(), Vec::new());
    for line in stream.lines() {
        match line.split_once(' ')? {
            ("w", rest) if stored.insert(rest.split_once(' ')?.0) => text += &format!("{line}\n"),
            ("p", _) => text += &format!("{line}\nr {}\n", u32::MAX),
            ("d", position) => seen.push(position.parse().ok()?),
            _ => return None,
        }
    }
    Some((text, seen))
}
