//! A second drawing engine, written from document 01 and requests W1, W2, W4, W5 and W6 of document 02, to be read beside them.
//!
//! It is slow on purpose: it works unit by unit, finds the bounds by going through every byte of every pixel, and does the raster
//! operation bit by bit. The quotations are document 01's; W1's, W2's, W4's, W5's, W6's and the data book's (000) are named.

// ---- Registers ------------------------------------------------------------------------------------------------------------------

/// "Names at the same register offset in 000's summary are one register": VEC_ERR is SRC_OFFSET, VEC_LEN is WID_HEIGHT.
pub const RASTER_MODE: usize = 0;
pub const DST_OFFSET: usize = 1;
pub const SRC_OFFSET: usize = 2;
pub const VEC_ERR: usize = SRC_OFFSET;
pub const STRIDE: usize = 3;
pub const WID_HEIGHT: usize = 4;
pub const VEC_LEN: usize = WID_HEIGHT;
pub const SRC_COLOR_FG: usize = 5;
pub const SRC_COLOR_BG: usize = 6;
pub const PAT_COLOR_0: usize = 7;
pub const PAT_COLOR_1: usize = 8;
pub const PAT_DATA_0: usize = 9;
pub const PAT_DATA_1: usize = 10;
pub const CH3_OFFSET: usize = 11;
pub const CH3_MODE_STR: usize = 12;
pub const CH3_WIDHI: usize = 13;
pub const BASE_OFFSET: usize = 14;
pub const BLT_MODE: usize = 15;
pub const VECTOR_MODE: usize = 16;
/// W4: GP_LUT_INDEX, which kind 10 commands load. All its bits are kept; only 8:0 say a place in the table.
pub const LUT_INDEX: usize = 17;

pub type Registers = [u32; 18];

/// W4: "the 512-word table"
pub type Table = [u32; 512];

/// "BLT, 17 words, enables 15:0": the register of each word after the header.
pub const BLT_WORDS: [usize; 16] = [
    RASTER_MODE, DST_OFFSET, SRC_OFFSET, STRIDE, WID_HEIGHT, SRC_COLOR_FG, SRC_COLOR_BG, PAT_COLOR_0, PAT_COLOR_1, PAT_DATA_0,
    PAT_DATA_1, CH3_OFFSET, CH3_MODE_STR, CH3_WIDHI, BASE_OFFSET, BLT_MODE,
];

/// "Vector, 14 words, enables 12:0".
pub const VECTOR_WORDS: [usize; 13] = [
    RASTER_MODE, DST_OFFSET, VEC_ERR, STRIDE, VEC_LEN, SRC_COLOR_FG, PAT_COLOR_0, PAT_COLOR_1, PAT_DATA_0, PAT_DATA_1,
    CH3_MODE_STR, BASE_OFFSET, VECTOR_MODE,
];

/// The kinds that draw. A table load (kind 10) and a data command (kind 11) are no such commands: see `is_table_load`, `is_data`.
#[derive(Clone, Copy, PartialEq, Eq, Debug)]
pub enum Kind {
    Blt,
    Vector,
}

/// The registers of the words after a header of this kind, in their order.
pub fn words_of(kind: Kind) -> &'static [usize] {
    match kind {
        Kind::Blt => &BLT_WORDS,
        Kind::Vector => &VECTOR_WORDS,
    }
}

/// Words of a whole command of a kind that draws, header included: 17 or 14.
pub fn command_length(kind: Kind) -> u32 {
    words_of(kind).len() as u32 + 1
}

/// Bits high:low of a word.
pub fn field(word: u32, high: u32, low: u32) -> u32 {
    let below_high = (1u64 << (high + 1)) - 1;
    ((u64::from(word) & below_high) >> low) as u32
}

fn signed16(value: u32) -> i64 {
    i64::from(value as u16 as i16)
}

// ---- State and answers ----------------------------------------------------------------------------------------------------------

/// "the place in a command being drawn": its kind and how many of its pixels are drawn, and its data; all else follows by its own steps.
#[derive(Clone, Copy, PartialEq, Eq, Debug)]
pub struct Place {
    pub kind: Kind,
    pub drawn: i64,
    pub data: Data,
}

/// W5: "Such a BLT takes its pixels from the data commands that follow".
#[derive(Clone, Copy, PartialEq, Eq, Debug)]
pub enum Data {
    /// no data commands: a vector, or a BLT without host source
    Plain,
    /// a BLT that wants data, with no data command accepted
    Wanted,
    /// W5: "The state then holds that command's count and W", and how many of the BLT's words came before it
    Fed { count: u32, w: bool, before: i64 },
}

/// "registers, two pointers, ring and frame lengths, completion number, stop number, and the place in a command being drawn, or none"; W4:
/// "The state record now holds the table"
#[derive(Clone, Copy, PartialEq, Eq, Debug)]
pub struct State {
    pub registers: Registers,
    pub table: Table,
    pub read: u32,
    pub write: u32,
    pub ring_len: u32,
    pub frame_len: u32,
    pub completion: u32,
    pub stop: u32,
    pub place: Option<Place>,
}

/// "a state of all zeros"
pub const ZEROS: State = State {
    registers: [0; 18],
    table: [0; 512],
    read: 0,
    write: 0,
    ring_len: 0,
    frame_len: 0,
    completion: 0,
    stop: 0,
    place: None,
};

/// "Accepted, each answers 0 (a run its word)"; "A refused call answers its number".
#[derive(Clone, Copy, PartialEq, Eq, Debug)]
pub enum Word {
    Zero,
    Waiting,
    Spent,
    Stopped,
    Refused(u32),
}

#[derive(Clone, Copy, PartialEq, Eq, Debug)]
pub struct Answer {
    pub word: Word,
    pub units: u32,
    pub room: u32,
}

/// "A refused call answers its number, units 0 and room 0"
fn refused(number: u32) -> Answer {
    Answer { word: Word::Refused(number), units: 0, room: 0 }
}

fn accepted(state: &State) -> Answer {
    Answer { word: Word::Zero, units: 0, room: room_of(state) }
}

// ---- The ring -------------------------------------------------------------------------------------------------------------------

fn modulo(value: i64, size: u32) -> u32 {
    value.rem_euclid(i64::from(size)) as u32
}

/// "Words waiting = (write - read) modulo ring size."
pub fn waiting(state: &State) -> u32 {
    modulo(i64::from(state.write) - i64::from(state.read), state.ring_len)
}

/// "Room = ring size - 1 - waiting."
pub fn room_of(state: &State) -> u32 {
    state.ring_len - 1 - waiting(state)
}

// ---- Calls ----------------------------------------------------------------------------------------------------------------------

/// W4: "Number 1 now refuses rings below 1,024"; W6: "Raise number 2's upper limit to 67,108,864 bytes and number 1's to 262,144 words"
const RING_LENGTHS: std::ops::RangeInclusive<u32> = 1_024..=262_144;
const FRAME_LENGTHS: std::ops::RangeInclusive<u32> = 1..=67_108_864;

/// "After setup all registers, pointers and the completion number are zero"; W4: "the table, zero after setup"
pub fn setup(ring_len: u32, frame_len: u32) -> (State, Answer) {
    if !RING_LENGTHS.contains(&ring_len) {
        return (ZEROS, refused(1));
    }
    if !FRAME_LENGTHS.contains(&frame_len) {
        return (ZEROS, refused(2));
    }
    let state = State { ring_len, frame_len, ..ZEROS };
    (state, accepted(&state))
}

/// Row 3, turned round: a state that any later call accepts.
pub fn fit(state: &State) -> bool {
    if !RING_LENGTHS.contains(&state.ring_len) || !FRAME_LENGTHS.contains(&state.frame_len) {
        return false; // "a length outside 1 or 2"
    }
    if state.read >= state.ring_len || state.write >= state.ring_len {
        return false; // "a pointer not below ring size"
    }
    if state.stop != 0 && !(21..=32).contains(&state.stop) {
        return false; // "a stop number that is neither 0 nor one of 21 and above in this table"
    }
    match state.place {
        None => true,
        Some(place) => {
            state.stop == 0 // "a stop together with a command in progress"
                && judge(place.kind, &state.registers, state.frame_len) == 0
                && (0..pixel_count(place.kind, &state.registers)).contains(&place.drawn)
                && data_fit(state, &place)
        }
    }
}

/// W5: "Row 3 covers a place that no split of the BLT's words into data commands reaches, a count or W that 32 or 22 would refuse at the
/// read pointer, and a data command whose words, with W also those up to the ring's end, don't all wait."
fn data_fit(state: &State, place: &Place) -> bool {
    let host = place.kind == Kind::Blt && host_source(&state.registers);
    if place.data == Data::Plain {
        return !host;
    }
    if !host {
        return false;
    }
    let next = word_of_pixel(&state.registers, place.drawn);
    match place.data {
        // the words before it are used up
        Data::Wanted => place.drawn == 0 || word_of_pixel(&state.registers, place.drawn - 1) != next,
        Data::Fed { count, w, before } => {
            let length = data_length(count);
            0 <= before
                && (before..before + i64::from(count)).contains(&next)
                && data_count_good(state, count)
                && count <= MOST_DATA
                && !w_misplaced(state, w, length)
                && whole(state, w, length)
        }
        Data::Plain => false,
    }
}

/// "Publishing position p is accepted exactly when p is below the ring size and (p - read) modulo size is at least the words waiting."
pub fn publish(state: State, position: u32) -> (State, Answer) {
    if !fit(&state) {
        return (state, refused(3));
    }
    if position >= state.ring_len {
        return (state, refused(5));
    }
    if modulo(i64::from(position) - i64::from(state.read), state.ring_len) < waiting(&state) {
        return (state, refused(6));
    }
    let state = State { write: position, ..state };
    (state, accepted(&state))
}

pub fn room(state: State) -> (State, Answer) {
    if !fit(&state) {
        return (state, refused(3));
    }
    (state, accepted(&state))
}

/// "Restart clears the stop number and moves read to write; all else stays."
pub fn restart(state: State) -> (State, Answer) {
    if !fit(&state) {
        return (state, refused(3));
    }
    if state.stop == 0 {
        return (state, refused(7));
    }
    let state = State { stop: 0, read: state.write, ..state };
    (state, accepted(&state))
}

/// "It does units until one of the first two holds or the budget is used." `seen` is shown the state before and after each unit,
/// with the ring and with frame memory after it.
pub fn run(
    state: State,
    ring: &[u32],
    frame: &mut [u8],
    budget: u32,
    seen: &mut dyn FnMut(&State, &[u32], &[u8], &State),
) -> (State, Answer) {
    if !fit(&state) {
        return (state, refused(3));
    }
    if ring.len() as u64 != u64::from(state.ring_len) || frame.len() as u64 != u64::from(state.frame_len) {
        return (state, refused(4));
    }
    let mut state = state;
    let mut units = 0;
    let word = loop {
        // "stopped, if a stop number stands; else waiting, if no further unit can be done; else spent"
        if state.stop != 0 {
            break Word::Stopped;
        }
        let next = next_unit(&state, ring);
        if next == Unit::None {
            break Word::Waiting;
        }
        if units == budget {
            break Word::Spent;
        }
        let before = state;
        do_unit(&mut state, ring, frame, next);
        units += 1;
        seen(&before, ring, frame, &state);
    };
    (state, Answer { word, units, room: room_of(&state) })
}

// ---- Units ----------------------------------------------------------------------------------------------------------------------

#[derive(Clone, Copy, PartialEq, Eq, Debug)]
pub enum Unit {
    None,
    Refuse(u32),
    Load(Kind),
    LoadTable,
    AcceptData,
    Pixel,
}

/// The unit that a running engine would do now.
pub fn next_unit(state: &State, ring: &[u32]) -> Unit {
    // a BLT that wants data is not drawn meanwhile
    let wanted = data_wanted(state);
    if state.place.is_some() && !wanted {
        return Unit::Pixel;
    }
    if waiting(state) == 0 {
        return Unit::None; // "Equal pointers mean empty."
    }
    // "21 and 22 are judged as soon as the header waits"; W5: "The order is 21, 30 and 31 when the header waits, these before every
    // other number"
    let header = ring_word(state, ring, 0);
    if header_faults(header) != 0 {
        return Unit::Refuse(21);
    }
    if is_data(header) {
        return if wanted { next_of_data(state, ring) } else { Unit::Refuse(31) }; // "31 for data that nobody wants"
    }
    if wanted {
        return Unit::Refuse(30); // "30 for any other command while a BLT still wants data"
    }
    let kind = match kind_of(header) {
        Some(kind) => kind,
        None => return next_of_table_load(state, ring),
    };
    let length = command_length(kind);
    if w_misplaced(state, has_w(header), length) {
        return Unit::Refuse(22);
    }
    if !whole(state, has_w(header), length) {
        return Unit::None;
    }
    // "23 to 28 only for commands that draw, on the registers as they would be after loading"
    if draws(kind, header) {
        let number = judge(kind, &registers_after(state, ring, kind), state.frame_len);
        if number != 0 {
            return Unit::Refuse(number);
        }
    }
    Unit::Load(kind)
}

pub fn data_wanted(state: &State) -> bool {
    state.place.is_some_and(|place| place.data == Data::Wanted)
}

/// The unit for a table load whose header waits.
fn next_of_table_load(state: &State, ring: &[u32]) -> Unit {
    let header = ring_word(state, ring, 0);
    // W4: "judged as soon as three words wait and before 22, which for this kind waits for them too"
    if waiting(state) < 3 {
        return Unit::None;
    }
    let count_word = ring_word(state, ring, 2);
    if !count_word_good(count_word) {
        return Unit::Refuse(29);
    }
    let length = table_load_length(count_word);
    if w_misplaced(state, has_w(header), length) {
        return Unit::Refuse(22);
    }
    if !whole(state, has_w(header), length) {
        return Unit::None;
    }
    Unit::LoadTable
}

/// The unit for a data command that is wanted, whose header waits.
fn next_of_data(state: &State, ring: &[u32]) -> Unit {
    let header = ring_word(state, ring, 0);
    // W5: "32 when the count word waits, then 22, which for this kind waits for the count word"
    if waiting(state) < 2 {
        return Unit::None;
    }
    let count_word = ring_word(state, ring, 1);
    if !data_word_good(state, count_word) {
        return Unit::Refuse(32);
    }
    let length = data_length(data_count(count_word));
    if w_misplaced(state, has_w(header), length) {
        return Unit::Refuse(22);
    }
    if !whole(state, has_w(header), length) {
        return Unit::None;
    }
    Unit::AcceptData
}

/// 22: "W on a command that begins at ring word 0, or whose words run across the end"
fn w_misplaced(state: &State, w: bool, length: u32) -> bool {
    w && (state.read == 0 || state.read + length > state.ring_len)
}

/// "It is whole when all its words wait and, with W, when the words waiting also reach the ring's end."
fn whole(state: &State, w: bool, length: u32) -> bool {
    if waiting(state) < length {
        return false;
    }
    if w && waiting(state) < state.ring_len - state.read {
        return false;
    }
    true
}

fn do_unit(state: &mut State, ring: &[u32], frame: &mut [u8], unit: Unit) {
    match unit {
        Unit::None => {}
        // "Refusing a command costs one unit and moves nothing but the stop number"; W5: "Any stop while data is wanted abandons the BLT
        // unretired."
        Unit::Refuse(number) => {
            state.stop = number;
            state.place = None;
        }
        // "Loading moves the read pointer and enabled registers."
        Unit::Load(kind) => {
            let header = ring_word(state, ring, 0);
            state.registers = registers_after(state, ring, kind);
            pass(state, has_w(header), command_length(kind));
            if draws(kind, header) {
                let host = kind == Kind::Blt && host_source(&state.registers);
                state.place = Some(Place { kind, drawn: 0, data: if host { Data::Wanted } else { Data::Plain } });
            } else {
                retire(state); // "or by its load if it draws nothing"
            }
        }
        // one unit, whatever the count
        Unit::LoadTable => {
            let (header, count_word) = (ring_word(state, ring, 0), ring_word(state, ring, 2));
            (state.registers, state.table) = table_after(state, ring);
            pass(state, has_w(header), table_load_length(count_word));
            retire(state); // it draws nothing
        }
        // W5: "Accepting a whole data command is one unit; its words stay waiting"; "Data commands don't raise the completion number."
        Unit::AcceptData => {
            let (w, count) = (has_w(ring_word(state, ring, 0)), data_count(ring_word(state, ring, 1)));
            if let Some(place) = state.place {
                let before = word_of_pixel(&state.registers, place.drawn);
                state.place = Some(Place { data: Data::Fed { count, w, before }, ..place });
            }
        }
        Unit::Pixel => {
            if let Some(place) = state.place {
                match place.kind {
                    Kind::Blt => {
                        let word = word_that_feeds(state, ring, &place);
                        draw_fed_pixel(&state.registers, &state.table, frame, place.drawn, word);
                    }
                    Kind::Vector => draw_vector_pixel(&state.registers, frame, place.drawn),
                }
                let drawn = place.drawn + 1;
                if drawn == pixel_count(place.kind, &state.registers) {
                    pass_data(state, place.data); // W5: "Words left over at the last pixel are dropped."
                    state.place = None;
                    retire(state); // "A command is retired by its last pixel"
                } else {
                    state.place = Some(Place { drawn, ..place });
                    if data_used_up(&state.registers, drawn, place.data) {
                        pass_data(state, place.data);
                        state.place = Some(Place { drawn, data: Data::Wanted, ..place });
                    }
                }
            }
        }
    }
}

/// The next pixel lies in a word behind those of the data command.
fn data_used_up(registers: &Registers, drawn: i64, data: Data) -> bool {
    match data {
        Data::Fed { count, before, .. } => word_of_pixel(registers, drawn) >= before + i64::from(count),
        _ => false,
    }
}

/// W5: "the read pointer passes it in the unit that draws the last pixel it feeds"
fn pass_data(state: &mut State, data: Data) {
    if let Data::Fed { count, w, .. } = data {
        pass(state, w, data_length(count));
    }
}

/// The data word that feeds the next pixel; of a BLT without host source, none is looked at.
fn word_that_feeds(state: &State, ring: &[u32], place: &Place) -> u32 {
    match place.data {
        Data::Fed { before, .. } => ring_word(state, ring, data_length(0) + (word_of_pixel(&state.registers, place.drawn) - before) as u32),
        _ => 0,
    }
}

/// "After it, read moves past it, or to 0 with W"
fn pass(state: &mut State, w: bool, length: u32) {
    state.read = if w {
        0
    } else {
        modulo(i64::from(state.read) + i64::from(length), state.ring_len)
    };
}

/// "a u32 that wraps on purpose, from 4,294,967,295 to 0"
fn retire(state: &mut State) {
    state.completion = state.completion.wrapping_add(1);
}

// ---- Command words --------------------------------------------------------------------------------------------------------------

/// Word i of the command at the read pointer, its header being word 0. "A command may run across the ring's end."
pub fn ring_word(state: &State, ring: &[u32], i: u32) -> u32 {
    ring[modulo(i64::from(state.read) + i64::from(i), state.ring_len) as usize]
}

/// "bit 31 W (return to ring word 0 afterwards)"
pub fn has_w(header: u32) -> bool {
    field(header, 31, 31) == 1
}

/// "bits 30:29 kind (00 BLT, 01 vector)"
pub fn kind_of(header: u32) -> Option<Kind> {
    match field(header, 30, 29) {
        0 => Some(Kind::Blt),
        1 => Some(Kind::Vector),
        _ => None,
    }
}

/// "All other header bits are zero": those between S (bit 28) and the write enables.
pub fn header_faults(header: u32) -> u32 {
    match kind_of(header) {
        Some(Kind::Blt) => field(header, 27, 16),
        Some(Kind::Vector) => field(header, 27, 13),
        None if is_data(header) => data_header_faults(header),
        None => table_header_faults(header),
    }
}

/// "If the last enable (BLT 15, vector 12) is clear, the command only loads its enabled registers."
pub fn draws(kind: Kind, header: u32) -> bool {
    match kind {
        Kind::Blt => field(header, 15, 15) == 1,
        Kind::Vector => field(header, 12, 12) == 1,
    }
}

/// "Bit i enables word i after the header, counted from 0; a clear bit means the word is present and skipped."
pub fn registers_after(state: &State, ring: &[u32], kind: Kind) -> Registers {
    let header = ring_word(state, ring, 0);
    let mut registers = state.registers;
    for (i, register) in words_of(kind).iter().enumerate() {
        if (header >> i) & 1 == 1 {
            registers[*register] = ring_word(state, ring, 1 + i as u32);
        }
    }
    registers
}

// ---- Table loads ----------------------------------------------------------------------------------------------------------------

/// W4: "kind 10 commands of Table 6-10: index, count word (DTYPE 011), then data"
pub fn is_table_load(header: u32) -> bool {
    field(header, 30, 29) == 0b10
}

/// The header bits that must be zero. Bit 0 enables the index; bit 1, of the count word, has no effect; S is bit 28.
pub fn table_header_faults(header: u32) -> u32 {
    field(header, 27, 2)
}

/// DCOUNT, the number of data words (000, Table 6-12)
pub fn data_count(count_word: u32) -> u32 {
    field(count_word, 15, 0)
}

/// W4, 29 turned round: "a DTYPE other than 011, a reserved bit set in the count word, or a count of 0 or above 512"
pub fn count_word_good(count_word: u32) -> bool {
    let data_type = field(count_word, 31, 29);
    let reserved = field(count_word, 28, 16);
    data_type == 0b011 && reserved == 0 && (1..=512).contains(&data_count(count_word))
}

/// Header, index and count word, then the data.
pub fn table_load_length(count_word: u32) -> u32 {
    3 + data_count(count_word)
}

/// The registers and the table as the table load at the read pointer leaves them. W4: "data into the 512-word table, the index's bits 8:0
/// rising after each word and returning from 511 to 0"; "Header bit 0 enables the index."
pub fn table_after(state: &State, ring: &[u32]) -> (Registers, Table) {
    let (mut registers, mut table) = (state.registers, state.table);
    if field(ring_word(state, ring, 0), 0, 0) == 1 {
        registers[LUT_INDEX] = ring_word(state, ring, 1);
    }
    for i in 0..data_count(ring_word(state, ring, 2)) {
        let at = table_place(&registers);
        table[at as usize] = ring_word(state, ring, 3 + i);
        registers[LUT_INDEX] = registers[LUT_INDEX] & !0x1FF | (at + 1) % 512;
    }
    (registers, table)
}

/// "only the 9 LSBs of the pointer are used to index" (000, 6.4.2.25)
pub fn table_place(registers: &Registers) -> u32 {
    field(registers[LUT_INDEX], 8, 0)
}

// ---- Data commands --------------------------------------------------------------------------------------------------------------

/// W5: "Carry kind 11 commands with DTYPE 000": header, count word, data (000, Table 6-11).
pub fn is_data(header: u32) -> bool {
    field(header, 30, 29) == 0b11
}

/// The header bits that must be zero. Bit 0, of the count word, and S (bit 28) have no effect.
pub fn data_header_faults(header: u32) -> u32 {
    field(header, 27, 1)
}

/// W5, 32 turned round: "a count of 0, a count above ring size less 3, a reserved bit or another DTYPE"
pub fn data_word_good(state: &State, word: u32) -> bool {
    let data_type = field(word, 31, 29);
    let reserved = field(word, 28, 16);
    data_type == 0b000 && reserved == 0 && data_count_good(state, data_count(word))
}

fn data_count_good(state: &State, count: u32) -> bool {
    (1..=state.ring_len - 3).contains(&count)
}

/// The largest count that DCOUNT's 16 bits can say, whatever the ring: a saved count above it is of no data command.
const MOST_DATA: u32 = 65_535;

/// Header and count word, then the data.
pub fn data_length(count: u32) -> u32 {
    2 + count
}

// ---- Judging --------------------------------------------------------------------------------------------------------------------

/// "The colour format is a decision over all sixteen codes"
pub fn bytes_per_pixel(registers: &Registers) -> Option<i64> {
    match field(registers[RASTER_MODE], 31, 28) {
        0b0000 => Some(1),
        0b0100 | 0b0101 | 0b0110 => Some(2),
        0b1000 => Some(4),
        _ => None,
    }
}

/// Refusals 23 to 28 of a command that draws, or 0. "Where several apply the lowest wins."
pub fn judge(kind: Kind, registers: &Registers, frame_len: u32) -> u32 {
    let raster = registers[RASTER_MODE];
    let mode = registers[BLT_MODE];

    // 23: "colour format not one of the five below, or alpha enabled"
    let depth = match bytes_per_pixel(registers) {
        Some(depth) => depth,
        None => return 23,
    };
    if field(raster, 23, 22) != 0 {
        return 23;
    }

    // 24: "a source or pattern mode field with a code not carried (used by the pixels or not; BLT_MODE is judged for a BLT only)"
    let pattern_mode = field(raster, 9, 8);
    let source_bits = source_inversion(registers) || source_transparency(registers);
    match kind {
        Kind::Blt => {
            // W4: 24 stops covering "a BLT's colour pattern", code 10; code 11 is not carried, under channel 3's pattern neither
            let source_select = field(mode, 1, 0);
            if source_select == 0b11 || pattern_mode == 0b11 {
                return 24;
            }
            // W1: "keeps pattern inversion, and both source bits on vectors and colour modes, and takes mono from frame memory with
            // X negative, or byte-packed with Y negative"
            let refused = match source_mode(registers) {
                SourceMode::Colour => source_bits,
                SourceMode::Unpacked => source_selected(registers) && x_negative(registers),
                SourceMode::BytePacked => source_selected(registers) && (x_negative(registers) || y_negative(registers)),
                SourceMode::Undefined => true,
            };
            if refused {
                return 24;
            }
            // W5: 24 stops covering "host source unless a pixel would straddle two words"
            if host_source(registers) && source_mode(registers) == SourceMode::Colour && some_pixel_straddles(registers, depth) {
                return 24;
            }
            if channel_3(registers) && !channel_3_is_pattern(registers) {
                return 24;
            }
        }
        Kind::Vector => {
            // "a vector with a pattern that isn't solid, channel 3 enabled"
            if pattern_mode != 0 || source_bits || channel_3(registers) {
                return 24;
            }
        }
    }
    let pattern_inversion = field(raster, 12, 12) == 1;
    if pattern_inversion {
        return 24;
    }
    // W6: "Number 24 stops covering BASE_OFFSET."

    // 25: "width, height or vector length 0"
    if pixel_count(kind, registers) == 0 {
        return 25;
    }

    // 26: "vector axial term below 0 or diagonal term above 0"
    if kind == Kind::Vector && (axial(registers) < 0 || diagonal(registers) > 0) {
        return 26;
    }

    // 27: "some byte of some destination pixel lies outside frame memory", its base added
    let inside = |first: i64, bytes: i64| (0..bytes).all(|byte| (0..i64::from(frame_len)).contains(&(first + byte)));
    let destinations_inside = match kind {
        Kind::Blt => (0..pixel_count(kind, registers)).all(|k| inside(blt_pixel(registers, depth, k).destination, depth)),
        Kind::Vector => vector_pixels(registers, depth).all(|pixel| inside(pixel.position, depth)),
    };
    if !destinations_inside {
        return 27;
    }

    // 28: "a BLT's source select is frame memory, whatever the raster code, and some byte of some source pixel lies outside"; W1: "28
    // is judged on the source bytes that hold the needed bits"
    let source_inside = |k: i64| {
        let pixel = blt_pixel(registers, depth, k);
        inside(pixel.source, pixel.source_bytes)
    };
    if kind == Kind::Blt && source_selected(registers) && !(0..pixel_count(kind, registers)).all(source_inside) {
        return 28;
    }
    0
}

/// CH3_MODE_STR's EN (000, 6.4.2.22)
pub fn channel_3(registers: &Registers) -> bool {
    field(registers[CH3_MODE_STR], 31, 31) == 1
}

/// W4: "24 keeps channel 3 enabled without that mode, steered to the source, in another format than RASTER_MODE's, or with further mode
/// bits but X and Y set." The reserved bits 17:16 and the stride have no effect.
fn channel_3_is_pattern(registers: &Registers) -> bool {
    let mode = registers[CH3_MODE_STR];
    let to_source = field(mode, 30, 30) == 1; // PS
    let format = field(mode, 27, 24);
    let rotation_and_bgr = field(mode, 23, 22); // RO, BGR
    let pattern_mode = field(mode, 21, 21) == 1; // PM
    let further = field(mode, 20, 18); // PL, PE, HS
    pattern_mode && !to_source && format == field(registers[RASTER_MODE], 31, 28) && rotation_and_bgr == 0 && further == 0
}

/// Width times height of a BLT; "LENGTH pixels are drawn" of a vector.
pub fn pixel_count(kind: Kind, registers: &Registers) -> i64 {
    match kind {
        Kind::Blt => width(registers) * height(registers),
        Kind::Vector => i64::from(field(registers[VEC_LEN], 27, 16)),
    }
}

pub fn width(registers: &Registers) -> i64 {
    i64::from(field(registers[WID_HEIGHT], 27, 16))
}

pub fn height(registers: &Registers) -> i64 {
    i64::from(field(registers[WID_HEIGHT], 11, 0))
}

/// BLT_MODE's SR: the source is in frame memory
pub fn source_selected(registers: &Registers) -> bool {
    field(registers[BLT_MODE], 1, 0) == 0b01
}

/// BLT_MODE's SR: the host sends the source
pub fn host_source(registers: &Registers) -> bool {
    field(registers[BLT_MODE], 1, 0) == 0b10
}

/// BLT_MODE's SM (000, 6.4.2.13).
#[derive(Clone, Copy, PartialEq, Eq, Debug)]
pub enum SourceMode {
    Colour,
    Unpacked,
    BytePacked,
    Undefined,
}

pub fn source_mode(registers: &Registers) -> SourceMode {
    match field(registers[BLT_MODE], 7, 6) {
        0b00 => SourceMode::Colour,
        0b01 => SourceMode::Unpacked,
        0b10 => SourceMode::BytePacked,
        _ => SourceMode::Undefined,
    }
}

/// RASTER_MODE's SI
pub fn source_inversion(registers: &Registers) -> bool {
    field(registers[RASTER_MODE], 13, 13) == 1
}

/// RASTER_MODE's ST
pub fn source_transparency(registers: &Registers) -> bool {
    field(registers[RASTER_MODE], 11, 11) == 1
}

pub fn x_negative(registers: &Registers) -> bool {
    field(registers[BLT_MODE], 9, 9) == 1
}

pub fn y_negative(registers: &Registers) -> bool {
    field(registers[BLT_MODE], 8, 8) == 1
}

pub fn destination_offset(registers: &Registers) -> i64 {
    i64::from(field(registers[DST_OFFSET], 23, 0))
}

pub fn source_offset(registers: &Registers) -> i64 {
    i64::from(field(registers[SRC_OFFSET], 23, 0))
}

/// W6: "the fields and granule of 000". 000, 6.4.2.16: "Each base defines a 16 MB region that begins on a 4 MB boundary." What it says there
/// of wrapping at the region's end is void.
const GRANULE: i64 = 4_194_304;

/// DBASE
pub fn destination_base(registers: &Registers) -> i64 {
    GRANULE * i64::from(field(registers[BASE_OFFSET], 31, 22))
}

/// SBASE. Channel 3's base, 11:2, is used by nothing yet: its pattern mode reads the table. 1:0 are reserved.
pub fn source_base(registers: &Registers) -> i64 {
    GRANULE * i64::from(field(registers[BASE_OFFSET], 21, 12))
}

/// W6: "each base is added to its own channel's offset"; all 24 bits of the offset count
pub fn destination_start(registers: &Registers) -> i64 {
    destination_base(registers) + destination_offset(registers)
}

/// Of a source in frame memory; the host's has no base.
pub fn source_start(registers: &Registers) -> i64 {
    source_base(registers) + source_offset(registers)
}

/// SRC_OFFSET's XLSBS: "Offset within byte to first monochrome pixel" (000, 6.4.2.2)
pub fn source_xlsbs(registers: &Registers) -> i64 {
    i64::from(field(registers[SRC_OFFSET], 28, 26))
}

pub fn destination_stride(registers: &Registers) -> i64 {
    i64::from(field(registers[STRIDE], 15, 0))
}

pub fn source_stride(registers: &Registers) -> i64 {
    i64::from(field(registers[STRIDE], 31, 16))
}

/// "Axial, diagonal and initial error are signed 16-bit."
pub fn axial(registers: &Registers) -> i64 {
    signed16(field(registers[VEC_ERR], 31, 16))
}

pub fn diagonal(registers: &Registers) -> i64 {
    signed16(field(registers[VEC_ERR], 15, 0))
}

pub fn initial_error(registers: &Registers) -> i64 {
    signed16(field(registers[VEC_LEN], 15, 0))
}

// ---- A BLT pixel ----------------------------------------------------------------------------------------------------------------

pub struct BltPixel {
    /// its first byte
    pub destination: i64,
    /// the first byte of the source pixel, or the byte that holds the bit of a mono source
    pub source: i64,
    /// how many bytes hold the source
    pub source_bytes: i64,
    /// of a mono source, the number of its bit in that byte
    pub source_bit: i64,
    pub pattern_row: i64,
    pub pattern_column: i64,
}

/// Pixel number k, "Rows are drawn in order, columns in order within a row." "Positions are signed whole numbers, never reduced."
pub fn blt_pixel(registers: &Registers, depth: i64, k: i64) -> BltPixel {
    let i = k % width(registers);
    let j = k / width(registers);
    // "i pixels further, or back if X is negative, and j destination strides further, or back if Y is negative"
    let steps_x = if x_negative(registers) { -i } else { i };
    let steps_y = if y_negative(registers) { -j } else { j };
    // W2: "with X negative the offset names the last byte of that pixel, for colour source and destination alike"
    let to_first_byte = if x_negative(registers) { 1 - depth } else { 0 };
    // 000, 6.4.2.21: for channel 3's pattern the "coordinate of starting pixel within color pattern memory" is in CH3_OFFSET
    let offset_register = registers[if channel_3(registers) { CH3_OFFSET } else { DST_OFFSET }];

    // "Source pixels go the same way with their own offset and stride." 000, 6.4.2.4, for mono too: "Adding the GP_STRIDE to the
    // OFFSET gives the byte address for the first pixel of the next line of a BLT."
    let by_stride = source_start(registers) + steps_y * source_stride(registers);
    // 000, 6.3.8.2, of byte-packed rows: "after WIDTH pixels have been transferred, skips the remaining bits in the byte plus the number
    // specified in XLSBs, and begins the next line at that location"
    let row_bits = source_xlsbs(registers) + width(registers);
    let packed = source_start(registers) + j * ((row_bits + 7) / 8);
    // 000, 6.4.2.4: "the XLSBs [...] are used to index into the first byte of every line"; 6.3.8.1: "the left-most pixels are in the
    // most significant bits of the byte"
    let from_row = source_xlsbs(registers) + i;
    let source_bit = 7 - from_row % 8;
    let (source, source_bytes) = match source_mode(registers) {
        // 11 is refused
        SourceMode::Colour | SourceMode::Undefined => (by_stride + to_first_byte + steps_x * depth, depth),
        SourceMode::Unpacked => (by_stride + from_row / 8, 1),
        SourceMode::BytePacked => (packed + from_row / 8, 1),
    };

    BltPixel {
        destination: destination_start(registers) + to_first_byte + steps_x * depth + steps_y * destination_stride(registers),
        source,
        source_bytes,
        source_bit,
        // "the offset register's Y and X low bits plus the signed steps from the first pixel, modulo 8"
        pattern_row: (i64::from(field(offset_register, 31, 29)) + steps_y).rem_euclid(8),
        pattern_column: (i64::from(field(offset_register, 28, 26)) + steps_x).rem_euclid(8),
    }
}

// ---- A pixel sent by the host ---------------------------------------------------------------------------------------------------

/// Where a source pixel lies among all data words that the BLT takes, counted from 0.
pub struct HostPixel {
    pub word: i64,
    /// of that word, its lowest byte being 0 (000, 6.3.8.1: "the left-most pixels on the screen in the least significant bytes")
    pub byte: i64,
    /// of a mono source, the number of its bit in that byte
    pub bit: i64,
}

/// 000, 6.3.8.2: "The two LSBs of the source OFFSET are used to determine the starting byte of the host source data"
pub fn first_byte(registers: &Registers) -> i64 {
    i64::from(field(registers[SRC_OFFSET], 1, 0))
}

/// Pixel number k. W5: "rows packed as 000 says, X and Y moving only the destination".
pub fn host_pixel(registers: &Registers, depth: i64, k: i64) -> HostPixel {
    let i = k % width(registers);
    let j = k / width(registers);
    let first = first_byte(registers);
    // 000, 6.4.2.2: "XLSBSs are used to index into the first byte of every new line"
    let row_bits = source_xlsbs(registers) + width(registers);
    let from_row = source_xlsbs(registers) + i;
    // 6.3.8.2, of unpacked mono and colour: "discards any data remaining in the DWORD after WIDTH pixels have been transferred and begins
    // the next line at the byte specified by the two LSBs of the offset in the next DWORD received"
    let in_words = |row_bytes: i64| j * 4 * ((first + row_bytes + 3) / 4) + first;
    let at = match source_mode(registers) {
        // 11 is refused
        SourceMode::Colour | SourceMode::Undefined => in_words(width(registers) * depth) + i * depth,
        SourceMode::Unpacked => in_words((row_bits + 7) / 8) + from_row / 8,
        // of byte-packed mono: "skips the remaining bits in the byte plus the number specified in XLSBs, and begins the next line at that
        // location"
        SourceMode::BytePacked => first + j * ((row_bits + 7) / 8) + from_row / 8,
    };
    HostPixel { word: at / 4, byte: at % 4, bit: 7 - from_row % 8 }
}

/// The number of the data word that feeds pixel k.
pub fn word_of_pixel(registers: &Registers, k: i64) -> i64 {
    host_pixel(registers, bytes_per_pixel(registers).unwrap_or(1), k).word
}

/// W5: "a pixel would straddle two words"
fn some_pixel_straddles(registers: &Registers, depth: i64) -> bool {
    (0..pixel_count(Kind::Blt, registers)).any(|k| host_pixel(registers, depth, k).byte + depth > 4)
}

/// The colour at a pixel's place in its word; the bytes above the depth are not looked at.
fn host_colour(word: u32, pixel: &HostPixel) -> u32 {
    word >> (8 * pixel.byte)
}

pub fn host_bit(word: u32, pixel: &HostPixel) -> bool {
    (word >> (8 * pixel.byte + pixel.bit)) & 1 == 1
}

// ---- Patterns, and drawing ------------------------------------------------------------------------------------------------------

/// What a BLT's pattern is. W4: a colour pattern "by RASTER_MODE or, in place of any pattern there, by channel 3's pattern mode"
#[derive(Clone, Copy, PartialEq, Eq, Debug)]
pub enum Pattern {
    Solid,
    Mono,
    Colour,
    Undefined,
}

pub fn pattern(registers: &Registers) -> Pattern {
    match field(registers[RASTER_MODE], 9, 8) {
        _ if channel_3(registers) => Pattern::Colour,
        0b00 => Pattern::Solid,
        0b01 => Pattern::Mono,
        0b10 => Pattern::Colour,
        _ => Pattern::Undefined,
    }
}

/// The table's word with the tile's upper left pixel.
const TILE: i64 = 0x100;

/// W4: "The tile is read as eight rows of eight colours from table words 100h to 13Fh, packed by depth". 000, 6.3.7: "The least significant
/// byte of this first DWORD contains the upper left most pixel", "the pattern is packed into the space required to hold it".
pub fn tile_colour(table: &Table, depth: i64, row: i64, column: i64) -> u32 {
    let first = (8 * row + column) * depth;
    let mut colour = 0;
    for byte in 0..depth {
        let at = first + byte;
        let word = table[(TILE + at / 4) as usize];
        colour |= ((word >> (8 * (at % 4))) & 0xFF) << (8 * byte);
    }
    colour
}

/// "PAT_DATA_0 holding rows 0 to 3 with row 0 in its lowest byte, PAT_DATA_1 rows 4 to 7, bit 7 leftmost"
pub fn pattern_bit(registers: &Registers, row: i64, column: i64) -> bool {
    let data = if row < 4 { registers[PAT_DATA_0] } else { registers[PAT_DATA_1] };
    let row_byte = (data >> (8 * (row % 4))) & 0xFF;
    (row_byte >> (7 - column)) & 1 == 1
}

/// The bit of a mono source, as memory then stands.
pub fn stored_bit(frame: &[u8], pixel: &BltPixel) -> bool {
    (frame[pixel.source as usize] >> pixel.source_bit) & 1 == 1
}

/// A pixel of a BLT without host source.
pub fn draw_blt_pixel(registers: &Registers, table: &Table, frame: &mut [u8], k: i64) {
    draw_fed_pixel(registers, table, frame, k, 0);
}

/// "Each pixel reads source, pattern and destination as memory then stands, and writes the destination." `word` is the data word that
/// feeds it, if the host sends the source.
fn draw_fed_pixel(registers: &Registers, table: &Table, frame: &mut [u8], k: i64, word: u32) {
    let raster = registers[RASTER_MODE];
    let depth = bytes_per_pixel(registers).unwrap_or(0);
    let pixel = blt_pixel(registers, depth, k);
    let host = host_source(registers);
    let source = if !source_selected(registers) && !host {
        // "With no source selected the source value is SRC_COLOR_FG."; W1: "inversion and transparency do nothing"
        registers[SRC_COLOR_FG]
    } else if host && source_mode(registers) == SourceMode::Colour {
        host_colour(word, &host_pixel(registers, depth, k))
    } else if source_mode(registers) == SourceMode::Colour {
        read_pixel(frame, pixel.source, depth)
    } else {
        let bit = if host { host_bit(word, &host_pixel(registers, depth, k)) } else { stored_bit(frame, &pixel) };
        let set = bit != source_inversion(registers);
        if source_transparency(registers) && !set {
            return; // W1: "A transparent pixel (bit clear after inversion) writes nothing and costs its unit."
        }
        // 000, 6.3.8.3: a clear bit gives GP_SRC_COLOR_BG, a set one GP_SRC_COLOR_FG
        if set { registers[SRC_COLOR_FG] } else { registers[SRC_COLOR_BG] }
    };
    let mono = pattern(registers) == Pattern::Mono;
    let transparent = field(raster, 10, 10) == 1;
    // "Set gives PAT_COLOR_1, clear PAT_COLOR_0"
    let set = mono && pattern_bit(registers, pixel.pattern_row, pixel.pattern_column);
    if mono && transparent && !set {
        return; // "with pattern transparency a clear bit writes nothing, yet costs its unit"; W4: "has no effect" on a colour pattern
    }
    let pattern = if pattern(registers) == Pattern::Colour {
        tile_colour(table, depth, pixel.pattern_row, pixel.pattern_column)
    } else if set {
        registers[PAT_COLOR_1]
    } else {
        registers[PAT_COLOR_0]
    };
    let destination = read_pixel(frame, pixel.destination, depth);
    let result = raster_operation(field(raster, 7, 0), pattern, source, destination, 8 * depth);
    write_pixel(frame, pixel.destination, depth, result);
}

/// "result bit = bit (4P + 2S + D) of the 8-bit code", for as many bits as a pixel has.
pub fn raster_operation(code: u32, pattern: u32, source: u32, destination: u32, bits: i64) -> u32 {
    let mut result = 0;
    for bit in 0..bits {
        let p = (pattern >> bit) & 1;
        let s = (source >> bit) & 1;
        let d = (destination >> bit) & 1;
        result |= ((code >> (4 * p + 2 * s + d)) & 1) << bit;
    }
    result
}

/// "Pixels are little-endian and may start at any byte."
fn read_pixel(frame: &[u8], first: i64, depth: i64) -> u32 {
    let mut value = 0;
    for byte in 0..depth {
        value |= u32::from(frame[(first + byte) as usize]) << (8 * byte);
    }
    value
}

/// Writes the low bytes of the value: "Every colour register gives its low bytes at the depth."
fn write_pixel(frame: &mut [u8], first: i64, depth: i64, value: u32) {
    for byte in 0..depth {
        frame[(first + byte) as usize] = (value >> (8 * byte)) as u8;
    }
}

// ---- A vector pixel -------------------------------------------------------------------------------------------------------------

/// A vector's pixels in order: the first byte of each, with the error as it stands there.
pub struct VectorPixels {
    left: i64,
    position: i64,
    error: i64,
    axial: i64,
    diagonal: i64,
    major: i64,
    minor: i64,
}

#[derive(Clone, Copy)]
pub struct VectorPixel {
    pub position: i64,
    pub error: i64,
}

/// "A step in X is one pixel, a step in Y one destination stride; VECTOR_MODE gives the major axis and both signs."
pub fn vector_pixels(registers: &Registers, depth: i64) -> VectorPixels {
    let mode = registers[VECTOR_MODE];
    let y_major = field(mode, 0, 0) == 1;
    let stride = destination_stride(registers);
    let (major_step, minor_step) = if y_major { (stride, depth) } else { (depth, stride) };
    let signed = |step: i64, positive: u32| if positive == 1 { step } else { -step };
    VectorPixels {
        left: pixel_count(Kind::Vector, registers),
        position: destination_start(registers),
        error: initial_error(registers),
        axial: axial(registers),
        diagonal: diagonal(registers),
        major: signed(major_step, field(mode, 1, 1)),
        minor: signed(minor_step, field(mode, 2, 2)),
    }
}

impl Iterator for VectorPixels {
    type Item = VectorPixel;

    /// "Draw; if the error is below 0 take an axial step (major axis only) and add the axial term, else a diagonal step and add the
    /// diagonal term."
    fn next(&mut self) -> Option<VectorPixel> {
        if self.left == 0 {
            return None;
        }
        let pixel = VectorPixel { position: self.position, error: self.error };
        self.left -= 1;
        if self.error < 0 {
            self.position += self.major;
            self.error += self.axial;
        } else {
            self.position += self.major + self.minor;
            self.error += self.diagonal;
        }
        Some(pixel)
    }
}

/// "Source is SRC_COLOR_FG, pattern PAT_COLOR_0; the raster rule and destination reads are a BLT's."
fn draw_vector_pixel(registers: &Registers, frame: &mut [u8], k: i64) {
    let depth = bytes_per_pixel(registers).unwrap_or(0);
    if let Some(pixel) = vector_pixels(registers, depth).nth(k as usize) {
        let destination = read_pixel(frame, pixel.position, depth);
        let code = field(registers[RASTER_MODE], 7, 0);
        let result = raster_operation(code, registers[PAT_COLOR_0], registers[SRC_COLOR_FG], destination, 8 * depth);
        write_pixel(frame, pixel.position, depth, result);
    }
}
