//! What the programs replay, frame, trace and large must write for an input, by the model.

use crate::model::{self, Answer, Kind, State, Word};
use crate::stream::{self, Case};

/// Told of what happens, so that the tester can count it.
pub trait Watch {
    /// frame memory as it is after the unit
    fn unit(&mut self, before: &State, ring: &[u32], frame: &[u8], after: &State);
    fn call(&mut self, call: Call, before: &State, ring: &[u32], answer: &Answer, after: &State);
    fn store(&mut self, state: &State, ring: &[u32], position: u32);
}

#[derive(Clone, Copy, PartialEq, Eq)]
pub enum Call {
    Setup,
    Publish(u32),
    Run(u32),
    Room,
    Restart,
}

pub struct Nobody;

impl Watch for Nobody {
    fn unit(&mut self, _: &State, _: &[u32], _: &[u8], _: &State) {}
    fn call(&mut self, _: Call, _: &State, _: &[u32], _: &Answer, _: &State) {}
    fn store(&mut self, _: &State, _: &[u32], _: u32) {}
}

pub const BAD: &str = "recording=bad\n";
pub const RING_LIMIT: u32 = 4_096;
pub const FRAME_LIMIT: u32 = 32_768;

fn word_at(input: &[u8], index: usize) -> u32 {
    let at = 4 * index;
    u32::from_le_bytes([input[at], input[at + 1], input[at + 2], input[at + 3]])
}

/// "It does setup, one publish and one run on a zeroed frame": the lines of replay and the bytes of frame.
pub fn replay(input: &[u8], watch: &mut dyn Watch) -> (String, Vec<u8>) {
    // "a ring length above 4,096, a frame length above 32,768 or a file that isn't exactly 4 + ring length words"
    if input.len() < 16 {
        return (BAD.to_string(), Vec::new());
    }
    let (ring_len, frame_len) = (word_at(input, 0), word_at(input, 1));
    let (position, budget) = (word_at(input, 2), word_at(input, 3));
    if ring_len > RING_LIMIT || frame_len > FRAME_LIMIT || input.len() != 4 * (4 + ring_len as usize) {
        return (BAD.to_string(), Vec::new());
    }
    let ring: Vec<u32> = (0..ring_len as usize).map(|i| word_at(input, 4 + i)).collect();

    let (state, answer) = model::setup(ring_len, frame_len);
    watch.call(Call::Setup, &model::ZEROS, &ring, &answer, &state);
    if let Word::Refused(_) = answer.word {
        return (replay_lines(&state, &answer), Vec::new());
    }
    let mut frame = vec![0; frame_len as usize];
    let before = state;
    let (state, answer) = model::publish(before, position);
    watch.call(Call::Publish(position), &before, &ring, &answer, &state);
    if let Word::Refused(_) = answer.word {
        return (replay_lines(&state, &answer), frame);
    }
    let before = state;
    let mut seen = |before: &State, ring: &[u32], frame: &[u8], after: &State| watch.unit(before, ring, frame, after);
    let (state, answer) = model::run(before, &ring, &mut frame, budget, &mut seen);
    watch.call(Call::Run(budget), &before, &ring, &answer, &state);
    (replay_lines(&state, &answer), frame)
}

/// "The first refused call ends the replay with state=refused and its number"; "a stop gives state=stopped and its number".
fn replay_lines(state: &State, answer: &Answer) -> String {
    let (word, refusal) = match answer.word {
        Word::Refused(number) => ("refused", number),
        Word::Stopped => ("stopped", state.stop),
        Word::Waiting => ("waiting", 0),
        Word::Spent => ("spent", 0),
        Word::Zero => ("0", 0),
    };
    format!(
        "retired={}\nunits={}\nread={}\nwrite={}\nstate={}\nrefusal={}\n",
        state.completion, answer.units, state.read, state.write, word, refusal
    )
}

/// Ring length, frame length, then records `op a b`; one line for each call, setup first, and the frame's CRC-32 at the end.
pub fn trace(input: &[u8], watch: &mut dyn Watch) -> String {
    if input.len() < 8 {
        return BAD.to_string();
    }
    let (ring_len, frame_len) = (word_at(input, 0), word_at(input, 1));
    if ring_len > RING_LIMIT || frame_len > FRAME_LIMIT {
        return BAD.to_string();
    }
    let mut ring = vec![0u32; ring_len as usize];
    let mut frame = vec![0u8; frame_len as usize];
    let (mut state, answer) = model::setup(ring_len, frame_len);
    watch.call(Call::Setup, &model::ZEROS, &ring, &answer, &state);
    let mut out = trace_line("setup", &answer, &state);
    if let Word::Refused(_) = answer.word {
        return out;
    }
    for record in input[8..].chunks(12) {
        if record.len() < 12 {
            return out + BAD;
        }
        let (op, a, b) = (word_at(record, 0), word_at(record, 1), word_at(record, 2));
        let before = state;
        let (name, call, (after, answer)) = match op {
            0 => {
                if a >= ring_len {
                    return out + BAD;
                }
                ring[a as usize] = b;
                watch.store(&state, &ring, a);
                continue;
            }
            1 => ("publish", Call::Publish(a), model::publish(before, a)),
            2 => {
                let mut seen =
                    |before: &State, ring: &[u32], frame: &[u8], after: &State| watch.unit(before, ring, frame, after);
                ("run", Call::Run(a), model::run(before, &ring, &mut frame, a, &mut seen))
            }
            3 => ("room", Call::Room, model::room(before)),
            4 => ("restart", Call::Restart, model::restart(before)),
            _ => return out + BAD,
        };
        watch.call(call, &before, &ring, &answer, &after);
        state = after;
        out += &trace_line(name, &answer, &state);
    }
    out + &format!("frame_crc32={:08x}\n", crc32(&frame))
}

fn trace_line(call: &str, answer: &Answer, state: &State) -> String {
    let word = match answer.word {
        Word::Zero => "0".to_string(),
        Word::Waiting => "waiting".to_string(),
        Word::Spent => "spent".to_string(),
        Word::Stopped => "stopped".to_string(),
        Word::Refused(number) => format!("refused-{number}"),
    };
    let drawing = match state.place {
        None => "none".to_string(),
        Some(place) => match place.kind {
            Kind::Blt => format!("blt-{}", place.drawn),
            Kind::Vector => format!("vector-{}", place.drawn),
        },
    };
    format!(
        "call={call} answer={word} units={} room={} read={} write={} retired={} stop={} drawing={drawing}\n",
        answer.units, answer.room, state.read, state.write, state.completion, state.stop
    )
}

/// A case for large memory: by setup, one publish and one run, up to the first call that is refused, or by setup and a list of calls.
pub fn large(case: &Case, watch: &mut dyn Watch) -> String {
    let (mut state, answer) = model::setup(case.ring.len() as u32, case.frame_len);
    watch.call(Call::Setup, &model::ZEROS, &case.ring, &answer, &state);
    let mut frame = vec![0; case.frame_len as usize];
    let (mut units, mut number) = (0, number_of(&answer, &state));
    let draw = case.draw.map(|(position, budget)| [(stream::PUBLISH, position, 0), (stream::RUN, 0, budget)]);
    for (kind, position, budget) in draw.as_ref().map_or(&case.calls[..], |calls| calls) {
        if draw.is_some() && number != 0 {
            break;
        }
        let before = state;
        let (call, (after, answer)) = match *kind {
            stream::PUBLISH => (Call::Publish(*position), model::publish(before, *position)),
            stream::RUN => {
                let mut seen =
                    |before: &State, ring: &[u32], frame: &[u8], after: &State| watch.unit(before, ring, frame, after);
                (Call::Run(*budget), model::run(before, &case.ring, &mut frame, *budget, &mut seen))
            }
            stream::ROOM => (Call::Room, model::room(before)),
            _ => (Call::Restart, model::restart(before)),
        };
        watch.call(call, &before, &case.ring, &answer, &after);
        state = after;
        units += u64::from(answer.units);
        number = number_of(&answer, &state);
    }
    stream::told(units, state.completion, draw.map(|_| number), &frame)
}

/// That of the refusal or of the stop, or 0.
fn number_of(answer: &Answer, state: &State) -> u32 {
    match answer.word {
        Word::Refused(number) => number,
        _ => state.stop,
    }
}

/// The CRC-32 of zip and PNG, bit by bit.
pub fn crc32(bytes: &[u8]) -> u32 {
    let mut crc = !0u32;
    for byte in bytes {
        crc ^= u32::from(*byte);
        for _ in 0..8 {
            crc = if crc & 1 == 1 { (crc >> 1) ^ 0xEDB8_8320 } else { crc >> 1 };
        }
    }
    !crc
}
