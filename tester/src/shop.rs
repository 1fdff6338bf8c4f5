//! Document 01's shop cases and its replay example, with rings of 1,024 words as W4 restates them, and cases of requests W1 to W6, asked of
//! the model. Run by `rustc --test`.

use crate::model::*;
use crate::programs::{crc32, replay, trace, Nobody};

const W: u32 = 1 << 31;
const DRAWING_BLT: u32 = 0xFFFF;
const RING: usize = 1_024;

/// A BLT with every enable set; registers that are not named are 0.
fn blt(header: u32, values: &[(usize, u32)]) -> Vec<u32> {
    let mut words = vec![header];
    for register in BLT_WORDS {
        words.push(values.iter().find(|(named, _)| *named == register).map_or(0, |(_, value)| *value));
    }
    words
}

fn fill(header: u32, offset: u32) -> Vec<u32> {
    blt(header, &[(RASTER_MODE, 0xF0), (DST_OFFSET, offset), (WID_HEIGHT, 4 << 16 | 1), (PAT_COLOR_0, 0x5A)])
}

fn ring_with(at: usize, words: &[u32]) -> Vec<u32> {
    let mut ring = vec![0; RING];
    for (i, word) in words.iter().enumerate() {
        ring[(at + i) % RING] = *word;
    }
    ring
}

fn state_at(read: u32, write: u32, frame_len: u32) -> State {
    State { read, write, ring_len: RING as u32, frame_len, ..ZEROS }
}

/// In a BLT without host source.
fn place_at(drawn: i64) -> Option<Place> {
    Some(Place { kind: Kind::Blt, drawn, data: Data::Plain })
}

fn quiet_run(state: State, ring: &[u32], frame: &mut [u8], budget: u32) -> (State, Answer) {
    run(state, ring, frame, budget, &mut |_, _, _, _| {})
}

#[test]
fn raster_codes() {
    for unused in 0..=255 {
        assert_eq!(raster_operation(0x5A, 0xFF, unused, 0xF0, 8), 0x0F);
        assert_eq!(raster_operation(0x66, unused, 0x3C, 0x0F, 8), 0x33);
        assert_eq!(raster_operation(0xCC, 0x12, unused, 0x34, 8), unused);
        assert_eq!(raster_operation(0xF0, unused, 0x12, 0x34, 8), unused);
        assert_eq!(raster_operation(0xAA, 0x12, 0x34, unused, 8), unused);
    }
}

#[test]
fn overlapping_copies() {
    for (mode, source, destination, wanted) in [(1, 0, 1, [1, 1, 1, 1, 1]), (0x201, 3, 4, [1, 1, 2, 3, 4])] {
        let words = blt(
            DRAWING_BLT,
            &[(RASTER_MODE, 0xCC), (DST_OFFSET, destination), (SRC_OFFSET, source), (WID_HEIGHT, 4 << 16 | 1), (BLT_MODE, mode)],
        );
        let mut frame = [1, 2, 3, 4, 5];
        let (state, answer) = quiet_run(state_at(0, 17, 5), &ring_with(0, &words), &mut frame, u32::MAX);
        assert_eq!((answer.word, answer.units, state.completion), (Word::Waiting, 5, 1));
        assert_eq!(frame, wanted);
    }
}

#[test]
fn vector_pixels_of_the_shop_case() {
    let mut registers = ZEROS.registers;
    registers[VEC_ERR] = 4 << 16 | (-6i32 as u32 & 0xFFFF);
    registers[VEC_LEN] = 6 << 16 | (-1i32 as u32 & 0xFFFF);
    registers[STRIDE] = 100;
    registers[VECTOR_MODE] = 6;
    let places: Vec<(i64, i64)> = vector_pixels(&registers, 1).map(|pixel| (pixel.position % 100, pixel.position / 100)).collect();
    assert_eq!(places, [(0, 0), (1, 0), (2, 1), (3, 1), (4, 2), (5, 2)]);
}

#[test]
fn pattern_rows() {
    for (low_bits, wanted) in [(0, vec![0, 2, 5, 7]), (3, vec![2, 4, 5, 7])] {
        let mut registers = ZEROS.registers;
        registers[PAT_DATA_0] = 0xA5;
        registers[DST_OFFSET] = low_bits << 26;
        registers[WID_HEIGHT] = 8 << 16 | 1;
        let set: Vec<i64> = (0..8)
            .filter(|k| {
                let pixel = blt_pixel(&registers, 1, *k);
                pattern_bit(&registers, pixel.pattern_row, pixel.pattern_column)
            })
            .collect();
        assert_eq!(set, wanted);
    }
}

// ---- W1: mono sources -----------------------------------------------------------------------------------------------------------

const FG: u32 = 0x5A;
const BG: u32 = 0x3C;
const SI: u32 = 1 << 13;
const PI: u32 = 1 << 12;
const ST: u32 = 1 << 11;
const X_NEGATIVE: u32 = 1 << 9;
const Y_NEGATIVE: u32 = 1 << 8;
const UNPACKED: u32 = 1 << 6;
const BYTE_PACKED: u32 = 2 << 6;
const FRAME_MEMORY: u32 = 1;

/// Registers of a BLT at 8 bpp, of code CCh unless another is named.
fn font_registers(values: &[(usize, u32)]) -> Registers {
    let mut registers = ZEROS.registers;
    let usual = [(RASTER_MODE, 0xCC), (WID_HEIGHT, 8 << 16 | 1), (SRC_COLOR_FG, FG), (SRC_COLOR_BG, BG)];
    for (register, value) in usual.iter().chain(values) {
        registers[*register] = *value;
    }
    registers
}

/// Draws it: every pixel costs its unit and the last one retires it, transparent or not.
fn draw_font(registers: Registers, frame: &mut [u8]) {
    let state = State { registers, place: place_at(0), ..state_at(0, 0, frame.len() as u32) };
    let count = pixel_count(Kind::Blt, &registers) as u32;
    let (state, answer) = quiet_run(state, &[0; RING], frame, count - 1);
    assert_eq!((answer.word, answer.units, state.completion), (Word::Spent, count - 1, 0));
    let (state, answer) = quiet_run(state, &[0; RING], frame, u32::MAX);
    assert_eq!((answer.word, answer.units, state.completion, state.place), (Word::Waiting, 1, 1, None));
}

/// 000's examples, OFFSET 0, XLSBS 2, WIDTH 8: a bit alone in memory sets the pixel that the table names, and no other.
#[test]
fn tables_6_23_and_6_24() {
    // six rows, each two bytes after the one before, whatever the stride; three rows, each in a DWORD of its own
    for (mode, stride, rows, row_bytes) in [(BYTE_PACKED, 0, 6, 2), (BYTE_PACKED, 65_535, 6, 2), (UNPACKED, 4, 3, 4)] {
        for row in 0..rows {
            for column in 0..8 {
                // behind the skipped bits 7 and 6 come pixels 0 to 5; pixels 6 and 7 are bits 7 and 6 of the next byte
                let (byte, bit) = [(0, 5), (0, 4), (0, 3), (0, 2), (0, 1), (0, 0), (1, 7), (1, 6)][column];
                let mut frame = vec![0; 12 + 8 * rows];
                frame[row * row_bytes + byte] = 1 << bit;
                let registers = font_registers(&[
                    (DST_OFFSET, 12),
                    (SRC_OFFSET, 2 << 26),
                    (STRIDE, stride << 16 | 8),
                    (WID_HEIGHT, 8 << 16 | rows as u32),
                    (BLT_MODE, mode | FRAME_MEMORY),
                ]);
                draw_font(registers, &mut frame);
                let mut wanted = vec![BG as u8; 8 * rows];
                wanted[8 * row + column] = FG as u8;
                assert_eq!(frame[12..], wanted, "mode {mode:x}, row {row}, column {column}");
            }
        }
    }
}

#[test]
fn inversion_and_transparency() {
    let (f, b, d) = (FG as u8, BG as u8, 0x11);
    for mode in [UNPACKED, BYTE_PACKED] {
        for (bits, wanted) in [
            (0, [f, b, f, f, b, f, b, b]),
            (SI, [b, f, b, b, f, b, f, f]),
            (ST, [f, d, f, f, d, f, d, d]),
            (SI | ST, [d, f, d, d, f, d, f, f]),
        ] {
            let mut frame = [d; 9];
            frame[0] = 0b1011_0100;
            draw_font(font_registers(&[(RASTER_MODE, bits | 0xCC), (DST_OFFSET, 1), (BLT_MODE, mode | FRAME_MEMORY)]), &mut frame);
            assert_eq!(frame[1..], wanted);
        }
        // transparent by its source or by its pattern, whatever the code: 00h writes zeros
        let values = [(RASTER_MODE, ST | 0x500), (DST_OFFSET, 1), (PAT_DATA_0, 0b1111_0000), (BLT_MODE, mode | FRAME_MEMORY)];
        let mut frame = [d; 9];
        frame[0] = 0b1011_0100;
        draw_font(font_registers(&values), &mut frame);
        assert_eq!(frame[1..], [0, d, 0, 0, d, d, d, d]);
        // nothing written at all
        let mut frame = [0; 9];
        draw_font(font_registers(&[(RASTER_MODE, ST | 0xFF), (DST_OFFSET, 1), (BLT_MODE, mode | FRAME_MEMORY)]), &mut frame);
        assert_eq!(frame, [0; 9]);
        // with no source selected both do nothing
        let values = [(RASTER_MODE, SI | ST | 0xCC), (DST_OFFSET, 8), (BLT_MODE, mode | X_NEGATIVE | Y_NEGATIVE)];
        let mut frame = [0; 9];
        draw_font(font_registers(&values), &mut frame);
        assert_eq!(frame, [0, f, f, f, f, f, f, f, f]);
    }
}

#[test]
fn a_font_drawn_over() {
    // pixel 0 writes the font's only byte: 10h, of which pixel 3 finds bit 4 set
    let mut frame = [0x80, 0, 0, 0];
    let values = [(WID_HEIGHT, 4 << 16 | 1), (SRC_COLOR_FG, 0x10), (BLT_MODE, UNPACKED | FRAME_MEMORY)];
    draw_font(font_registers(&values), &mut frame);
    assert_eq!(frame, [0x10, BG as u8, BG as u8, 0x10]);
}

#[test]
fn unpacked_rows_go_back() {
    let mut frame = [0x40, 0, 0x80, 1, 1, 1, 1];
    let values = [
        (DST_OFFSET, 5),
        (SRC_OFFSET, 2),
        (STRIDE, 2 << 16 | 2),
        (WID_HEIGHT, 2 << 16 | 2),
        (BLT_MODE, UNPACKED | Y_NEGATIVE | FRAME_MEMORY),
    ];
    draw_font(font_registers(&values), &mut frame);
    assert_eq!(frame, [0x40, 0, 0x80, BG as u8, FG as u8, FG as u8, BG as u8]);
}

#[test]
fn mono_and_24() {
    let number = |kind: Kind, bits: u32, mode: u32| {
        judge(kind, &font_registers(&[(RASTER_MODE, bits | 0xCC), (DST_OFFSET, 8), (BLT_MODE, mode)]), 16)
    };
    for select in [0, FRAME_MEMORY] {
        assert_eq!(number(Kind::Blt, 0, 3 << 6 | select), 24);
        for mode in [0, UNPACKED, BYTE_PACKED] {
            assert_eq!(number(Kind::Blt, 0, mode | select), 0);
            assert_eq!(number(Kind::Blt, PI, mode | select), 24);
            for bits in [SI, ST, SI | ST] {
                assert_eq!(number(Kind::Blt, bits, mode | select), if mode == 0 { 24 } else { 0 });
            }
        }
    }
    for direction in [X_NEGATIVE, Y_NEGATIVE, X_NEGATIVE | Y_NEGATIVE] {
        let x = direction != Y_NEGATIVE;
        assert_eq!(number(Kind::Blt, 0, UNPACKED | direction), 0);
        assert_eq!(number(Kind::Blt, 0, BYTE_PACKED | direction), 0);
        assert_eq!(number(Kind::Blt, 0, UNPACKED | direction | FRAME_MEMORY), if x { 24 } else { 0 });
        assert_eq!(number(Kind::Blt, 0, BYTE_PACKED | direction | FRAME_MEMORY), 24);
    }
    // BLT_MODE is not judged for a vector
    for (bits, wanted) in [(0, 0), (SI, 24), (ST, 24), (PI, 24)] {
        assert_eq!(number(Kind::Vector, bits, 3 << 6), wanted);
    }
}

#[test]
fn mono_and_28() {
    let frame_len = 16;
    // mode, SRC_OFFSET, XLSBS, source stride, width, height; inside, or outside by one byte
    for (mode, offset, xlsbs, stride, width, height, wanted) in [
        (BYTE_PACKED, 14, 2, 0, 8, 1, 0),
        (BYTE_PACKED, 15, 2, 0, 8, 1, 28),
        (BYTE_PACKED, 15, 2, 0, 6, 1, 0),
        (BYTE_PACKED, 15, 2, 0, 7, 1, 28),
        (BYTE_PACKED, 10, 2, 65_535, 8, 3, 0),
        (BYTE_PACKED, 11, 2, 0, 8, 3, 28),
        (UNPACKED, 15, 7, 0, 1, 9, 0),
        (UNPACKED, 15, 7, 0, 2, 1, 28),
        (UNPACKED, 7, 0, 4, 8, 3, 0),
        (UNPACKED, 8, 0, 4, 8, 3, 28),
        (UNPACKED | Y_NEGATIVE, 8, 0, 4, 8, 3, 0),
        (UNPACKED | Y_NEGATIVE, 7, 0, 4, 8, 3, 28),
        (UNPACKED | Y_NEGATIVE, 15, 0, 4, 8, 3, 0),
        (UNPACKED | Y_NEGATIVE, 15, 0, 4, 9, 3, 28),
    ] {
        // F0h does not read the source; at four bytes a pixel a source pixel still is a bit
        for raster in [0xCC, 0xF0, SI | ST | 0xF0] {
            let mut registers = font_registers(&[
                (RASTER_MODE, raster),
                (SRC_OFFSET, xlsbs << 26 | offset),
                (STRIDE, stride << 16),
                (WID_HEIGHT, width << 16 | height),
                (BLT_MODE, mode | FRAME_MEMORY),
            ]);
            assert_eq!(judge(Kind::Blt, &registers, frame_len), wanted);
            let state = State { registers, place: place_at(0), ..state_at(0, 0, frame_len) };
            assert_eq!(fit(&state), wanted == 0);
            registers[RASTER_MODE] |= 8 << 28;
            assert_eq!(judge(Kind::Blt, &registers, frame_len), if width > 4 { 27 } else { wanted });
        }
    }
}

// ---- W2: X negative -------------------------------------------------------------------------------------------------------------

/// RASTER_MODE's format, and bytes a pixel
const DEPTHS: [(u32, i64); 3] = [(0, 1), (6 << 28, 2), (8 << 28, 4)];
const DIRECTIONS: [u32; 4] = [0, X_NEGATIVE, Y_NEGATIVE, X_NEGATIVE | Y_NEGATIVE];

/// One command on this frame memory: the stop number.
fn draw(words: &[u32], frame: &mut [u8]) -> u32 {
    let state = state_at(0, words.len() as u32, frame.len() as u32);
    quiet_run(state, &ring_with(0, words), frame, u32::MAX).0.stop
}

/// Two rows of three pixels, 13 bytes apart. In a frame of 64: the offsets with all bytes inside.
fn offsets_inside(depth: i64, direction: u32) -> std::ops::RangeInclusive<i64> {
    let left = if direction & X_NEGATIVE != 0 { 3 * depth - 1 } else { 0 };
    let above = if direction & Y_NEGATIVE != 0 { 13 } else { 0 };
    let all = 13 + 3 * depth;
    left + above..=64 - all + left + above
}

fn two_rows(format: u32, direction: u32, to: i64, from: Option<i64>) -> Vec<u32> {
    let values = [
        (RASTER_MODE, format | if from.is_some() { 0xCC } else { 0xF0 }),
        (DST_OFFSET, to as u32),
        (SRC_OFFSET, from.unwrap_or(0) as u32),
        (STRIDE, 13 << 16 | 13),
        (WID_HEIGHT, 3 << 16 | 2),
        (PAT_COLOR_0, 0xA4A3_A2A1),
        (BLT_MODE, direction | u32::from(from.is_some())),
    ];
    blt(DRAWING_BLT, &values)
}

/// Two rows with a byte between them: four of five pixels of 16 bits, and two of three of 32 bits, go one pixel to the right.
#[test]
fn copies_to_the_right() {
    let two_bytes = vec![0, 1, 0, 1, 2, 3, 4, 5, 6, 7, 10, 11, 12, 11, 12, 13, 14, 15, 16, 17, 18];
    let four_bytes = vec![0, 1, 2, 3, 0, 1, 2, 3, 4, 5, 6, 7, 12, 13, 14, 15, 16, 13, 14, 15, 16, 17, 18, 19, 20];
    for (format, width, stride, from, to, wanted) in [(6 << 28, 4, 11, 7, 9, two_bytes), (8 << 28, 2, 13, 7, 11, four_bytes)] {
        for (y, row) in [(0, 0), (Y_NEGATIVE, stride)] {
            let values = [
                (RASTER_MODE, format | 0xCC),
                (DST_OFFSET, to + row),
                (SRC_OFFSET, from + row),
                (STRIDE, stride << 16 | stride),
                (WID_HEIGHT, width << 16 | 2),
                (BLT_MODE, X_NEGATIVE | y | FRAME_MEMORY),
            ];
            let mut frame: Vec<u8> = (0..wanted.len() as u8).collect();
            assert_eq!(draw(&blt(DRAWING_BLT, &values), &mut frame), 0);
            assert_eq!(frame, wanted);
        }
    }
}

/// A rectangle, filled or copied, lies at the same bytes whatever the directions, from the frame's first byte or up to its last.
#[test]
fn same_bytes_in_all_directions() {
    for (format, depth) in DEPTHS {
        for direction in DIRECTIONS {
            let inside = offsets_inside(depth, direction);
            let (low, high) = (*inside.start(), *inside.end());
            let apart = (high - low) as usize;
            for (to, from, first, source) in [(low, high, 0, apart), (high, low, apart, 0)] {
                let before: [u8; 64] = std::array::from_fn(|at| at as u8);
                let (mut fill_wanted, mut copy_wanted) = (before, before);
                for row in [0, 13] {
                    for byte in 0..3 * depth as usize {
                        fill_wanted[first + row + byte] = 0xA1 + byte as u8 % depth as u8;
                        copy_wanted[first + row + byte] = before[source + row + byte];
                    }
                }
                for unused in [0, UNPACKED, BYTE_PACKED] {
                    let mut filled = before;
                    assert_eq!(draw(&two_rows(format, direction | unused, to, None), &mut filled), 0);
                    assert_eq!(filled, fill_wanted);
                }
                let mut copied = before;
                assert_eq!(draw(&two_rows(format, direction, to, Some(from)), &mut copied), 0);
                assert_eq!(copied, copy_wanted);
            }
        }
    }
}

#[test]
fn directions_and_bounds() {
    for (format, depth) in DEPTHS {
        for direction in DIRECTIONS {
            let inside = offsets_inside(depth, direction);
            for offset in 0..72 {
                let number = |outside: u32| if inside.contains(&offset) { 0 } else { outside };
                let good = *inside.start();
                let judged = |words: Vec<u32>| draw(&words, &mut [0; 64]);
                assert_eq!(judged(two_rows(format, direction, offset, None)), number(27));
                assert_eq!(judged(two_rows(format, direction, offset, Some(good))), number(27));
                assert_eq!(judged(two_rows(format, direction, good, Some(offset))), number(28));
            }
        }
    }
}

/// Row A5h, X low bits 0, X negative: columns 0 7 6 5 4 3 2 1.
#[test]
fn patterns_go_back() {
    for (format, depth) in DEPTHS {
        let values = [
            (RASTER_MODE, format | 0x1F0),
            (DST_OFFSET, 8 * depth as u32 - 1),
            (STRIDE, 40),
            (WID_HEIGHT, 8 << 16 | 1),
            (PAT_COLOR_1, u32::MAX),
            (PAT_DATA_0, 0xA5),
            (BLT_MODE, X_NEGATIVE),
        ];
        let mut frame = vec![0x11; 8 * depth as usize];
        assert_eq!(draw(&blt(DRAWING_BLT, &values), &mut frame), 0);
        let from_the_left = [0, 0xFF, 0, 0, 0xFF, 0, 0xFF, 0xFF];
        let wanted: Vec<u8> = from_the_left.into_iter().flat_map(|byte| vec![byte; depth as usize]).collect();
        assert_eq!(frame, wanted);
    }
}

/// A vector of three pixels that goes back: its offset names the first byte of its first pixel.
#[test]
fn vectors_do_not_move() {
    for (format, depth) in DEPTHS {
        for offset in 0..20 {
            let mut words = vec![1 << 29 | 0x1FFF];
            words.extend(VECTOR_WORDS.map(|register| match register {
                RASTER_MODE => format | 0xF0,
                DST_OFFSET => offset as u32,
                STRIDE => 5,
                VEC_LEN => 3 << 16 | 0xFFFF,
                PAT_COLOR_0 => u32::MAX,
                _ => 0,
            }));
            let (mut frame, mut wanted) = ([0; 16], [0; 16]);
            let inside = (2 * depth..=16 - depth).contains(&offset);
            assert_eq!(draw(&words, &mut frame), if inside { 0 } else { 27 });
            if inside {
                wanted[(offset - 2 * depth) as usize..(offset + depth) as usize].fill(0xFF);
            }
            assert_eq!(frame, wanted);
        }
    }
}

// ---- W3: whole pixels -----------------------------------------------------------------------------------------------------------

/// Where P, S and D count from 0 to 7, bit by bit, each code gives itself, in every byte of a pixel.
#[test]
fn each_code_gives_itself() {
    for code in 0..=255 {
        for depth in [1, 2, 4] {
            let wanted = u32::from_le_bytes([code as u8; 4]) & u32::MAX >> (32 - 8 * depth);
            assert_eq!(raster_operation(code, 0xF0F0_F0F0, 0xCCCC_CCCC, 0xAAAA_AAAA, 8 * depth), wanted);
        }
    }
}

// ---- W4: table loads ------------------------------------------------------------------------------------------------------------

const TABLE_LOAD: u32 = 2 << 29;
const INDEX: u32 = 1;
const DATA: u32 = 3 << 29;

/// A table load of the words 1, 2, 3 and so on.
fn table_load(header: u32, index: u32, count: u32) -> Vec<u32> {
    let mut words = vec![TABLE_LOAD | header, index, DATA | count];
    words.extend(1..=count);
    words
}

/// The first unit with these words at this place, all of them waiting or only the first few.
fn first_unit(at: u32, words: &[u32], waiting: u32) -> Unit {
    next_unit(&state_at(at, (at + waiting) % RING as u32, 16), &ring_with(at as usize, words))
}

/// Commands one behind the other from ring word 0, none refused, each retired by its one unit.
fn after_loads(list: &[Vec<u32>]) -> State {
    let words = list.concat();
    let (state, answer) = quiet_run(state_at(0, words.len() as u32, 16), &ring_with(0, &words), &mut [0; 16], u32::MAX);
    assert_eq!((answer.word, answer.units, state.completion), (Word::Waiting, list.len() as u32, list.len() as u32));
    assert_eq!((state.read, state.place), (words.len() as u32, None));
    state
}

#[test]
fn index_and_data() {
    // 511, two words: the index's other bits stay
    let state = after_loads(&[table_load(INDEX, 0xABCD_EFFF, 2)]);
    assert_eq!((state.table[511], state.table[0], state.table[1]), (1, 2, 0));
    assert_eq!(state.registers[LUT_INDEX], 0xABCD_EE01);
    let state = after_loads(&[table_load(INDEX, u32::MAX, 1)]);
    assert_eq!((state.table[511], state.registers[LUT_INDEX]), (1, 0xFFFF_FE00));

    // bit 0 clear: on where the last one ended; the index word is present and skipped
    let state = after_loads(&[table_load(INDEX, 0x3FE, 3), table_load(0, 77, 2), table_load(2, 99, 1)]);
    assert_eq!(state.table[..5], [3, 1, 2, 1, 0]);
    assert_eq!((state.table[510], state.table[511], state.registers[LUT_INDEX]), (1, 2, 0x204));
    // with nothing before it: at 0
    assert_eq!(after_loads(&[table_load(0, 77, 1)]).table[..2], [1, 0]);

    // 512 words: every word of the table, and the index where it was
    let state = after_loads(&[table_load(INDEX, 300, 512)]);
    assert_eq!((state.table[300], state.table[511], state.table[0], state.table[299]), (1, 212, 213, 512));
    assert_eq!(state.registers[LUT_INDEX], 300);
    // no other register moves
    assert_eq!(state.registers[..LUT_INDEX], ZEROS.registers[..LUT_INDEX]);
}

#[test]
fn header_bits_of_a_table_load() {
    let with = |bits: u32| {
        let state = after_loads(&[table_load(INDEX | bits, 0x100, 3)]);
        (state.registers, state.table)
    };
    // bit 1 and S
    assert!(with(0) == with(2) && with(0) == with(1 << 28) && with(0) == with(1 << 28 | 2));
    for bit in 2..28 {
        for waiting in [1, 2, 3, 6] {
            // before 29 and 22
            for (header, count) in [(0, 3), (W, 3), (INDEX, 513)] {
                assert_eq!(first_unit(0, &table_load(header | 1 << bit, 0x100, count), waiting), Unit::Refuse(21));
            }
        }
    }
}

#[test]
fn count_words() {
    let judged = |count_word: u32, waiting: u32| {
        let mut words = table_load(INDEX, 0, 0);
        words[2] = count_word;
        first_unit(5, &words, waiting)
    };
    for (count, wanted) in [(0, Unit::Refuse(29)), (1, Unit::None), (512, Unit::None), (513, Unit::Refuse(29)), (0xFFFF, Unit::Refuse(29))] {
        assert_eq!(judged(DATA | count, 1), Unit::None);
        assert_eq!(judged(DATA | count, 2), Unit::None);
        assert_eq!(judged(DATA | count, 3), wanted);
    }
    assert_eq!((judged(DATA | 512, 514), judged(DATA | 512, 515)), (Unit::None, Unit::LoadTable));
    assert_eq!((judged(DATA | 1, 3), judged(DATA | 1, 4)), (Unit::None, Unit::LoadTable));
    for data_type in 0..8 {
        assert_eq!(judged(data_type << 29 | 1, 4) == Unit::LoadTable, data_type == 3);
        assert_eq!(judged(data_type << 29 | 1, 3) == Unit::Refuse(29), data_type != 3);
    }
    for bit in 16..29 {
        assert_eq!(judged(DATA | 1 << bit | 1, 3), Unit::Refuse(29));
    }
}

#[test]
fn w_on_a_table_load() {
    // at ring word 0: 22 with three words, not before; 29 comes first
    let (good, bad) = (table_load(W | INDEX, 0, 2), table_load(W | INDEX, 0, 513));
    for waiting in [1, 2] {
        assert_eq!(first_unit(0, &good, waiting), Unit::None);
        assert_eq!(first_unit(0, &bad, waiting), Unit::None);
    }
    for waiting in [3, 4, 5, 100] {
        assert_eq!(first_unit(0, &good, waiting), Unit::Refuse(22));
        assert_eq!(first_unit(0, &bad, waiting), Unit::Refuse(29));
    }
    // five words before the end and across it by one; the count word behind it
    assert_eq!(first_unit(1_019, &good, 4), Unit::None);
    assert_eq!(first_unit(1_019, &good, 5), Unit::LoadTable);
    for at in [1_020, 1_022, 1_023] {
        assert_eq!(first_unit(at, &good, 2), Unit::None);
        assert_eq!(first_unit(at, &good, 3), Unit::Refuse(22));
        assert_eq!(first_unit(at, &bad, 3), Unit::Refuse(29));
    }
    // without W: across the end
    let words = table_load(INDEX, 0x100, 2);
    for at in 1_020..1_024 {
        let (state, answer) = quiet_run(state_at(at, at + 5 - 1_024, 16), &ring_with(at as usize, &words), &mut [0; 16], u32::MAX);
        assert_eq!((answer.word, answer.units, state.read, state.completion), (Word::Waiting, 1, at + 5 - 1_024, 1));
        assert_eq!(state.table[0x100..0x103], [1, 2, 0]);
    }
    // with W: waits for the ring's end, then read 0
    let ring = ring_with(1_000, &good);
    for write in 1_005..1_024 {
        assert_eq!(next_unit(&state_at(1_000, write, 16), &ring), Unit::None);
    }
    let (state, answer) = quiet_run(state_at(1_000, 3, 16), &ring, &mut [0; 16], 1);
    assert_eq!((answer.word, state.read, state.table[1]), (Word::Waiting, 0, 2));
}

/// "moves nothing but the stop number"; "all else stays" at a restart.
#[test]
fn a_refused_table_load_loads_nothing() {
    let before = after_loads(&[table_load(INDEX, 0x100, 64)]);
    for (header, count_word, wanted) in [(INDEX, DATA | 513, 29), (INDEX, 2 << 29 | 2, 29), (W | INDEX, DATA | 2, 22), (5, DATA | 2, 21)] {
        let mut words = table_load(header, 0x120, 2);
        words[2] = count_word;
        let state = State { read: 1_021, write: 3, ..before };
        let (stopped, answer) = quiet_run(state, &ring_with(1_021, &words), &mut [0; 16], u32::MAX);
        assert_eq!((answer.word, answer.units), (Word::Stopped, 1));
        assert_eq!(stopped, State { stop: wanted, ..state });
        assert_eq!(restart(stopped).0, State { read: 3, ..state });
    }
}

// ---- W4: colour patterns --------------------------------------------------------------------------------------------------------

const COLOUR: u32 = 2 << 8;
const PT: u32 = 1 << 10;
const CH3_PATTERN: u32 = 1 << 31 | 1 << 21;

/// One pixel of a colour pattern with these low bits, 5Ah over byte 33h: its bytes, after the table was loaded through the ring.
fn tile_pixel(format: u32, depth: i64, word: u32, value: u32, low_bits: u32) -> Vec<u8> {
    let pixel = [
        (RASTER_MODE, format | COLOUR | 0x5A),
        (DST_OFFSET, low_bits << 26),
        (WID_HEIGHT, 1 << 16 | 1),
    ];
    let mut words = vec![TABLE_LOAD | INDEX, word, DATA | 1, value];
    words.extend(blt(DRAWING_BLT, &pixel));
    let mut frame = vec![0x33; depth as usize];
    assert_eq!(draw(&words, &mut frame), 0);
    frame.iter().map(|byte| byte ^ 0x33).collect()
}

/// 000, 6.3.7: the corners of the tile, at each depth.
#[test]
fn corners_of_the_tile() {
    let value = 0x4433_2211u32;
    let whole = |low: u32| value.to_le_bytes()[low as usize..].to_vec();
    // row and column in the low bits, table word, first byte of the pixel in it
    for (format, depth, corners) in [
        (0, 1, [(0, 0x100, 0), (7, 0x101, 3), (7 << 3, 0x10E, 0), (63, 0x10F, 3)]),
        (6 << 28, 2, [(0, 0x100, 0), (7, 0x103, 2), (7 << 3, 0x11C, 0), (63, 0x11F, 2)]),
        (8 << 28, 4, [(0, 0x100, 0), (7, 0x107, 0), (7 << 3, 0x138, 0), (63, 0x13F, 0)]),
    ] {
        for (low_bits, word, byte) in corners {
            assert_eq!(tile_pixel(format, depth, word, value, low_bits), whole(byte)[..depth as usize]);
            // no other word of the table
            for other in [word - 0x100, word - 1, word ^ 0x80, 0x140] {
                assert_eq!(tile_pixel(format, depth, other, value, low_bits), vec![0; depth as usize]);
            }
        }
    }
}

/// A tile of 64 bytes, its upper left pixel 1; at 8 bits, rows and columns in all directions.
fn counting_tile() -> Table {
    let mut table = [0xEEEE_EEEE; 512];
    for at in 0..16 {
        table[0x100 + at] = u32::from_le_bytes(std::array::from_fn(|byte| (4 * at + byte) as u8 + 1));
    }
    table
}

/// Three rows of three pixels at 8 bits: what they become over zeros, row by row from the top left.
fn three_by_three(raster: u32, destination_bits: u32, channel_3: u32, its_bits: u32, mode: u32) -> Vec<u8> {
    let first = if mode & X_NEGATIVE != 0 { 2 } else { 0 } + if mode & Y_NEGATIVE != 0 { 6 } else { 0 };
    let mut registers = ZEROS.registers;
    for (register, value) in [
        (RASTER_MODE, raster | 0xF0),
        (DST_OFFSET, destination_bits << 26 | first),
        (STRIDE, 3),
        (WID_HEIGHT, 3 << 16 | 3),
        (PAT_COLOR_0, 0x71),
        (PAT_COLOR_1, 0x72),
        (PAT_DATA_0, 0x5555_5555),
        (CH3_MODE_STR, channel_3),
        (CH3_OFFSET, its_bits << 26 | 0x3FF_FFFF),
        (BLT_MODE, mode),
    ] {
        registers[register] = value;
    }
    let state = State { registers, place: place_at(0), table: counting_tile(), ..state_at(0, 0, 9) };
    let mut frame = vec![0; 9];
    let (state, answer) = quiet_run(state, &[0; RING], &mut frame, u32::MAX);
    assert_eq!((answer.word, answer.units, state.completion), (Word::Waiting, 9, 1));
    frame
}

#[test]
fn rows_and_columns_of_the_tile() {
    let (row, column) = (6, 7);
    let bits = row << 3 | column;
    for mode in DIRECTIONS {
        let step = |negative: u32, i: u32| if mode & negative != 0 { i + 6 } else { i };
        let mut wanted: Vec<u8> = Vec::new();
        for j in 0..3 {
            for i in 0..3 {
                // counted from the first pixel, which is the right or the lower one where X or Y is negative
                wanted.push((8 * ((row + step(Y_NEGATIVE, j)) % 8) + (column + step(X_NEGATIVE, i)) % 8 + 1) as u8);
            }
        }
        // from DST_OFFSET's low bits; with transparency
        for raster in [COLOUR, COLOUR | PT] {
            assert_eq!(three_by_three(raster, bits, 0, 0o25, mode), wanted);
            assert_eq!(three_by_three(raster, bits, 0x7FFF_FFFF, 0o25, mode), wanted); // channel 3 off
        }
        // in place of any pattern, from CH3_OFFSET's; its X, Y, reserved bits and stride do nothing
        for raster in [0, PT, 1 << 8, 1 << 8 | PT, COLOUR, COLOUR | PT] {
            for idle in [0, 1 << 29, 1 << 28, 3 << 28, 3 << 16, 0xFFFF] {
                assert_eq!(three_by_three(raster, 0o25, CH3_PATTERN | idle, bits, mode), wanted);
            }
        }
    }
}

#[test]
fn colour_patterns_and_24() {
    let number = |kind: Kind, raster: u32, channel_3: u32| {
        let values = [(RASTER_MODE, raster | 0xF0), (WID_HEIGHT, 1 << 16 | 1), (CH3_MODE_STR, channel_3), (DST_OFFSET, 8)];
        judge(kind, &font_registers(&values), 16)
    };
    for (format, _) in DEPTHS {
        let pattern = CH3_PATTERN | format >> 4;
        for mode in 0..4 {
            let (raster, wanted) = (format | mode << 8, if mode == 3 { 24 } else { 0 });
            assert_eq!(number(Kind::Blt, raster, 0), wanted);
            assert_eq!(number(Kind::Blt, raster, pattern), wanted);
            assert_eq!(number(Kind::Blt, raster | PI, pattern), 24);
            assert_eq!(number(Kind::Vector, raster, 0), if mode == 0 { 0 } else { 24 });
            assert_eq!(number(Kind::Vector, raster, pattern), 24);
        }
        // X and Y, the reserved bits and the stride; each other bit
        for bit in 0..31 {
            let good = [29, 28].contains(&bit) || bit < 18;
            assert_eq!(number(Kind::Blt, format, pattern ^ 1 << bit), if good { 0 } else { 24 }, "bit {bit}");
            assert_eq!(number(Kind::Blt, format, (pattern ^ 1 << bit) & !W), 0);
            assert_eq!(number(Kind::Vector, format, (pattern ^ 1 << bit) & !W), 0);
        }
    }
    // the four-bit codes: another format of the same depth
    for (ours, its) in [(4, 5), (5, 6), (6, 4), (0, 8), (8, 0)] {
        assert_eq!(number(Kind::Blt, ours << 28, CH3_PATTERN | its << 24), 24);
        assert_eq!(number(Kind::Blt, ours << 28, CH3_PATTERN | ours << 24), 0);
    }
}

/// A copy under a colour pattern, and text over one that is transparent: the source as ever.
#[test]
fn sources_under_a_colour_pattern() {
    // code 66h reads source and destination, 5Ah pattern and destination, 96h all three
    for (code, wanted) in [(0x66, [4, 7]), (0x5A, [1 ^ 1, 2 ^ 2]), (0x96, [4 ^ 1, 7 ^ 2])] {
        let values = [
            (RASTER_MODE, COLOUR | PT | code),
            (SRC_OFFSET, 2),
            (WID_HEIGHT, 2 << 16 | 1),
            (BLT_MODE, FRAME_MEMORY),
        ];
        let mut words = vec![TABLE_LOAD | INDEX, 0x100, DATA | 1, 0x0201];
        words.extend(blt(DRAWING_BLT, &values));
        let mut frame = [1, 2, 5, 5];
        assert_eq!(draw(&words, &mut frame), 0);
        assert_eq!(frame[..2], wanted);
    }
    let values = [
        (RASTER_MODE, ST | 0xF0),
        (SRC_OFFSET, 4),
        (WID_HEIGHT, 4 << 16 | 1),
        (CH3_MODE_STR, CH3_PATTERN),
        (CH3_OFFSET, 1 << 26),
        (BLT_MODE, UNPACKED | FRAME_MEMORY),
    ];
    let mut words = vec![TABLE_LOAD | INDEX, 0x100, DATA | 2, 0x4433_2211, 0x8877_6655];
    words.extend(blt(DRAWING_BLT, &values));
    let mut frame = [0, 0, 0, 0, 0b1011_0000];
    assert_eq!(draw(&words, &mut frame), 0);
    assert_eq!(frame[..4], [0x22, 0, 0x44, 0x55]);
}

// ---- W5: pictures sent through the ring -----------------------------------------------------------------------------------------

const HOST: u32 = 2;
const DATA_COMMAND: u32 = 3 << 29;

fn data(header: u32, words: &[u32]) -> Vec<u32> {
    let mut command = vec![DATA_COMMAND | header, words.len() as u32];
    command.extend(words);
    command
}

/// A BLT with host source, and these data commands behind it, from this ring word on, on this frame memory: the state, the units, and
/// how the run ended.
fn send(at: u32, blt_words: &[u32], list: &[Vec<u32>], frame: &mut [u8]) -> (State, Answer) {
    let words = [blt_words.to_vec(), list.concat()].concat();
    let state = state_at(at, (at + words.len() as u32) % RING as u32, frame.len() as u32);
    quiet_run(state, &ring_with(at as usize, &words), frame, u32::MAX)
}

fn host_blt(values: &[(usize, u32)]) -> Vec<u32> {
    let mode = values.iter().find(|(register, _)| *register == BLT_MODE).map_or(0, |(_, mode)| *mode);
    let values = [&[(BLT_MODE, mode | HOST)], values].concat();
    blt(DRAWING_BLT, &values)
}

/// Bytes 1, 2, 3 and so on as words.
fn counting_words(count: u32) -> Vec<u32> {
    (0..count).map(|i| u32::from_le_bytes(std::array::from_fn(|byte| (4 * i) as u8 + byte as u8 + 1))).collect()
}

/// Three rows by CCh at each depth and from each first byte that 24 leaves: each row begins a new word.
#[test]
fn colour_rows() {
    for (format, depth, first, width, row_words) in [
        (0, 1, 0, 4, 1),
        (0, 1, 1, 3, 1),
        (0, 1, 1, 4, 2),
        (0, 1, 3, 1, 1),
        (0, 1, 3, 2, 2),
        (0, 1, 3, 6, 3),
        (6 << 28, 2, 0, 2, 1),
        (6 << 28, 2, 0, 3, 2),
        (6 << 28, 2, 2, 1, 1),
        (6 << 28, 2, 2, 2, 2),
        (6 << 28, 2, 1, 1, 1),
        (8 << 28, 4, 0, 2, 2),
    ] {
        let row = (width * depth) as usize;
        let values = [
            (RASTER_MODE, format | 0xCC),
            (SRC_OFFSET, 0xFFFF_FFFC | first), // its other bits do nothing to a colour source
            (STRIDE, 9 << 16 | row as u32),
            (WID_HEIGHT, width << 16 | 3),
        ];
        let mut wanted = Vec::new();
        for j in 0..3 {
            wanted.extend((0..row).map(|byte| (4 * row_words * j + first as usize + byte + 1) as u8));
        }
        let words = counting_words(3 * row_words as u32);
        let mut frame = vec![0; 3 * row];
        let (state, answer) = send(0, &host_blt(&values), &[data(1, &words)], &mut frame);
        assert_eq!((answer.word, answer.units, state.completion), (Word::Waiting, 2 + 3 * width, 1));
        assert_eq!((state.read, state.place), (state.write, None));
        assert_eq!(frame, wanted);
        // a word less: it wants data, and the last row's last word is not drawn
        let mut frame = vec![0; 3 * row];
        let (state, answer) = send(0, &host_blt(&values), &[data(1, &words[1..])], &mut frame);
        assert_eq!((answer.word, state.read, state.completion), (Word::Waiting, state.write, 0));
        assert!(data_wanted(&state));
    }
}

/// 000's examples, OFFSET 0, XLSBS 2, WIDTH 8: a bit alone in the words sets the pixel that the table names, and no other.
#[test]
fn tables_6_23_and_6_24_by_the_host() {
    for (mode, rows, row_bytes) in [(BYTE_PACKED, 6, 2), (UNPACKED, 3, 4)] {
        for first in 0..4 {
            for row in 0..rows {
                for column in 0..8 {
                    let (byte, bit) = [(0, 5), (0, 4), (0, 3), (0, 2), (0, 1), (0, 0), (1, 7), (1, 6)][column];
                    // with the first byte 3 a row of two bytes goes into a second word
                    let row_bytes = if mode == UNPACKED && first == 3 { 8 } else { row_bytes };
                    let at = row * row_bytes + first + byte;
                    let mut bytes = [0; 64];
                    bytes[at] = 1 << bit;
                    let words: Vec<u32> = (0..16).map(|i| u32::from_le_bytes(std::array::from_fn(|byte| bytes[4 * i + byte]))).collect();
                    let values = [
                        (RASTER_MODE, 0xCC),
                        (SRC_OFFSET, 2 << 26 | first as u32),
                        (STRIDE, 65_535 << 16 | 8),
                        (WID_HEIGHT, 8 << 16 | rows as u32),
                        (SRC_COLOR_FG, FG),
                        (SRC_COLOR_BG, BG),
                        (BLT_MODE, mode | X_NEGATIVE * u32::from(first == 1)),
                        (DST_OFFSET, 7 * u32::from(first == 1)),
                    ];
                    let mut frame = vec![0; 8 * rows];
                    let (state, _) = send(0, &host_blt(&values), &[data(1, &words)], &mut frame);
                    assert_eq!((state.completion, state.read), (1, state.write));
                    let mut wanted = vec![BG as u8; 8 * rows];
                    let column = if first == 1 { 7 - column } else { column };
                    wanted[8 * row + column] = FG as u8;
                    assert_eq!(frame, wanted, "mode {mode:x}, first byte {first}, row {row}, column {column}");
                }
            }
        }
    }
}

/// Inversion and transparency as from frame memory, in all directions.
#[test]
fn host_inversion_and_transparency() {
    let (f, b, d) = (FG as u8, BG as u8, 0x11);
    for mode in [UNPACKED, BYTE_PACKED] {
        for (bits, wanted) in [
            (0, [f, b, f, f, b, f, b, b]),
            (SI, [b, f, b, b, f, b, f, f]),
            (ST, [f, d, f, f, d, f, d, d]),
            (SI | ST, [d, f, d, d, f, d, f, f]),
        ] {
            for direction in DIRECTIONS {
                let back = direction & X_NEGATIVE != 0;
                let values = [
                    (RASTER_MODE, bits | 0xCC),
                    (DST_OFFSET, if back { 7 } else { 0 }),
                    (WID_HEIGHT, 8 << 16 | 1),
                    (SRC_COLOR_FG, FG),
                    (SRC_COLOR_BG, BG),
                    (BLT_MODE, mode | direction),
                ];
                let mut frame = [d; 8];
                send(0, &host_blt(&values), &[data(0, &[0b1011_0100])], &mut frame);
                if back {
                    frame.reverse();
                }
                assert_eq!(frame, wanted);
            }
        }
    }
}

/// Two rows of five bytes, from byte 0: in four words.
fn two_rows_of_five() -> Vec<u32> {
    host_blt(&[(RASTER_MODE, 0xCC), (STRIDE, 5), (WID_HEIGHT, 5 << 16 | 2)])
}

const FIVE_AND_FIVE: [u8; 10] = [1, 2, 3, 4, 5, 9, 10, 11, 12, 13];

/// However the words are split into data commands, whatever is left over of the last one, and wherever in the ring.
#[test]
fn splits() {
    let words = counting_words(7);
    for cuts in 0..8 {
        for left_over in 0..4 {
            let mut list: Vec<Vec<u32>> = vec![vec![words[0]]];
            for (i, word) in words.iter().enumerate().take(4 + left_over).skip(1) {
                if i < 4 && cuts >> (i - 1) & 1 == 1 {
                    list.push(Vec::new());
                }
                list.last_mut().unwrap().push(*word);
            }
            let commands: Vec<Vec<u32>> = list.iter().map(|words| data(1, words)).collect();
            for at in [0, 100, 1_000, 1_005, 1_006, 1_007, 1_010, 1_023] {
                let mut frame = [0; 10];
                let (state, answer) = send(at, &two_rows_of_five(), &commands, &mut frame);
                assert_eq!((answer.word, answer.units, state.completion), (Word::Waiting, 11 + list.len() as u32, 1));
                assert_eq!((state.read, state.place, frame), (state.write, None, FIVE_AND_FIVE));
            }
        }
    }
}

/// Unit by unit: read pointer, completion number and place.
#[test]
fn units_of_a_picture() {
    let words = counting_words(5);
    let list = [data(1, &words[..3]), data(1 << 28, &words[3..])].concat();
    let ring = ring_with(0, &[two_rows_of_five(), list].concat());
    let fed = |count, before| Data::Fed { count, w: false, before };
    let mut wanted = vec![(17, 0, Data::Wanted), (17, 0, fed(3, 0))];
    wanted.extend((1..9).map(|drawn| (17, drawn, fed(3, 0))));
    wanted.extend([(22, 9, Data::Wanted), (22, 9, fed(2, 3))]);
    let (mut state, mut frame) = (state_at(0, 26, 10), [0; 10]);
    for (read, drawn, data) in wanted {
        let answer;
        (state, answer) = quiet_run(state, &ring, &mut frame, 1);
        assert_eq!((answer.word, answer.units, answer.room), (Word::Spent, 1, 1_023 - (26 - read)));
        assert_eq!((state.read, state.completion, state.place), (read, 0, Some(Place { kind: Kind::Blt, drawn, data })));
        assert_eq!(restart(state).1.word, Word::Refused(7));
        assert!(fit(&state));
    }
    let (state, answer) = quiet_run(state, &ring, &mut frame, 1);
    assert_eq!((answer.word, state.read, state.completion, state.place), (Word::Waiting, 26, 1, None));
    assert_eq!(frame, FIVE_AND_FIVE);
}

/// Header and count word are not read again; the words are read when their pixels are drawn.
#[test]
fn altered_while_fed() {
    let words = counting_words(4);
    let mut ring = ring_with(0, &[two_rows_of_five(), data(1, &words)].concat());
    let mut frame = [0; 10];
    let (state, _) = quiet_run(state_at(0, 23, 10), &ring, &mut frame, 3);
    (ring[17], ring[18]) = (0xFFFF_FFFF, 0);
    ring[20] = 0x77;
    let (state, answer) = quiet_run(state, &ring, &mut frame, u32::MAX);
    assert_eq!((answer.word, answer.units, state.read, state.completion), (Word::Waiting, 9, 23, 1));
    assert_eq!(frame, [1, 2, 3, 4, 0x77, 9, 10, 11, 12, 13]);
}

#[test]
fn waiting_for_data() {
    // F0h too
    for raster in [0xCC, 0xF0, 0xAA] {
        let blt_words = host_blt(&[(RASTER_MODE, raster), (STRIDE, 5), (WID_HEIGHT, 5 << 16 | 2), (PAT_COLOR_0, 0x5A)]);
        let ring = ring_with(0, &[blt_words, data(1, &counting_words(4))].concat());
        let (mut state, mut frame) = (state_at(0, 17, 10), [0x33; 10]);
        for write in 17..23 {
            let answer;
            (state, _) = publish(state, write);
            (state, answer) = quiet_run(state, &ring, &mut frame, u32::MAX);
            assert_eq!((answer.word, answer.units), (Word::Waiting, u32::from(write == 17)));
            assert_eq!((state.read, state.completion, frame), (17, 0, [0x33; 10]));
            assert!(data_wanted(&state));
        }
        let (state, answer) = quiet_run(publish(state, 23).0, &ring, &mut frame, u32::MAX);
        assert_eq!((answer.word, answer.units, state.read, state.completion), (Word::Waiting, 11, 23, 1));
        let wanted = match raster {
            0xCC => FIVE_AND_FIVE,
            0xF0 => [0x5A; 10],
            _ => [0x33; 10],
        };
        assert_eq!(frame, wanted);
    }
}

#[test]
fn w_on_a_data_command() {
    // in the middle of the picture: the rest at ring word 0
    let words = counting_words(6);
    let mut ring = ring_with(100, &[two_rows_of_five(), data(W | 1, &words[..2])].concat());
    let rest = data(1, &words[2..4]);
    ring[..rest.len()].copy_from_slice(&rest);
    let mut frame = [0; 10];
    for write in 121..1_024 {
        let (state, answer) = quiet_run(state_at(100, write, 10), &ring, &mut frame, u32::MAX);
        assert_eq!((answer.word, answer.units, state.read), (Word::Waiting, 1, 117));
    }
    let (state, answer) = quiet_run(state_at(100, 0, 10), &ring, &mut frame, 6);
    assert_eq!((answer.word, state.read), (Word::Spent, 117));
    let (state, answer) = quiet_run(state, &ring, &mut frame, 1);
    assert_eq!((answer.word, state.read, data_wanted(&state)), (Word::Waiting, 0, true));
    let (state, answer) = quiet_run(publish(state, 4).0, &ring, &mut frame, u32::MAX);
    assert_eq!((answer.word, answer.units, state.read, state.completion), (Word::Waiting, 6, 4, 1));
    assert_eq!(frame, FIVE_AND_FIVE);

    // 22: at ring word 0 with two words, not with one; across the end; up to the end it is good
    let wanted_at = |read: u32, waiting: u32| State {
        registers: after_blt().registers,
        place: Some(Place { kind: Kind::Blt, drawn: 0, data: Data::Wanted }),
        ..state_at(read, (read + waiting) % RING as u32, 10)
    };
    for (at, unit) in [(0, Unit::Refuse(22)), (1_018, Unit::AcceptData), (1_019, Unit::Refuse(22)), (1_023, Unit::Refuse(22))] {
        let ring = ring_with(at as usize, &data(W, &words[..4]));
        assert_eq!(next_unit(&wanted_at(at, 1), &ring), Unit::None);
        assert_eq!(next_unit(&wanted_at(at, 2), &ring), if unit == Unit::AcceptData { Unit::None } else { unit });
        assert_eq!(next_unit(&wanted_at(at, 6), &ring), unit);
        // 32 comes first
        let mut bad = ring.clone();
        bad[(at as usize + 1) % RING] = 0;
        assert_eq!(next_unit(&wanted_at(at, 1), &bad), Unit::None);
        assert_eq!(next_unit(&wanted_at(at, 2), &bad), Unit::Refuse(32));
    }
}

/// The state with the BLT of two rows loaded, at ring word 17, which wants data.
fn after_blt() -> State {
    quiet_run(state_at(0, 17, 10), &ring_with(0, &two_rows_of_five()), &mut [0; 10], 1).0
}

#[test]
fn count_words_of_data() {
    let judged = |count_word: u32, waiting: u32| {
        let ring = ring_with(17, &[DATA_COMMAND | 1, count_word, 0, 0]);
        next_unit(&State { write: (17 + waiting) % RING as u32, ..after_blt() }, &ring)
    };
    for (count, wanted) in [
        (0, Unit::Refuse(32)),
        (1, Unit::None),
        (1_021, Unit::None),
        (1_022, Unit::Refuse(32)),
        (1_023, Unit::Refuse(32)),
        (0xFFFF, Unit::Refuse(32)),
    ] {
        assert_eq!((judged(count, 1), judged(count, 2)), (Unit::None, wanted));
    }
    // whole when the ring is full
    assert_eq!((judged(1_021, 1_022), judged(1_021, 1_023)), (Unit::None, Unit::AcceptData));
    for data_type in 0..8 {
        assert_eq!(judged(data_type << 29 | 1, 3), if data_type == 0 { Unit::AcceptData } else { Unit::Refuse(32) });
    }
    for bit in 16..29 {
        assert_eq!(judged(1 << bit | 1, 2), Unit::Refuse(32));
    }
}

/// 21, 30 and 31 by the header alone, before every other number.
#[test]
fn headers_around_data() {
    let (wanted, idle) = (State { write: 18, ..after_blt() }, state_at(17, 18, 10));
    let unit = |state: &State, header: u32| next_unit(state, &ring_with(17, &[header]));
    for w in [0, W] {
        for s in [0, 1 << 28] {
            // bit 0 and S do nothing
            for bit in [0, 1] {
                assert_eq!(unit(&wanted, DATA_COMMAND | w | s | bit), Unit::None);
                assert_eq!(unit(&idle, DATA_COMMAND | w | s | bit), Unit::Refuse(31));
            }
            for (kind, lowest) in [(0, 16), (1, 13), (2, 2), (3, 1)] {
                for bit in 0..28 {
                    let number = match (bit >= lowest, kind) {
                        (true, _) => 21,
                        (false, 3) => continue,
                        _ => 30,
                    };
                    assert_eq!(unit(&wanted, kind << 29 | w | s | 1 << bit), Unit::Refuse(number));
                }
            }
            for bit in 1..28 {
                assert_eq!(unit(&idle, DATA_COMMAND | w | s | 1 << bit), Unit::Refuse(21));
            }
        }
    }
    // before 22, 29 and 32, with more words waiting and at ring word 0
    let at_zero = |state: State| State { read: 0, write: 20, ..state };
    for words in [fill(W | DRAWING_BLT, 99), table_load(W | INDEX, 0, 513), vec![1 << 29 | W, 0, 0]] {
        assert_eq!(next_unit(&at_zero(wanted), &ring_with(0, &words)), Unit::Refuse(30));
    }
    assert_eq!(next_unit(&at_zero(idle), &ring_with(0, &[DATA_COMMAND | W, 0, 0])), Unit::Refuse(31));
    // a vector with BLT_MODE's host source wants nothing
    let mut words = vec![1 << 29 | 0x1FFF];
    words.extend(VECTOR_WORDS.map(|register| if register == VEC_LEN { 1 << 16 } else { 0 }));
    let state = State { read: 0, write: 14, place: None, ..after_blt() };
    let (state, answer) = quiet_run(state, &ring_with(0, &words), &mut [0; 10], u32::MAX);
    assert_eq!((answer.word, answer.units, state.completion), (Word::Waiting, 2, 1));
}

/// Any stop while data is wanted: the BLT is gone, not retired, nothing else moves; a restart goes on.
#[test]
fn abandoned() {
    let words = counting_words(4);
    for (bad, number) in [
        (fill(DRAWING_BLT, 0), 30),
        (fill(0, 0), 30),
        (table_load(INDEX, 0, 1), 30),
        (vec![DATA_COMMAND | 2], 21),
        (vec![1 << 27], 21),
        (vec![DATA_COMMAND, 1_022], 32),
        (vec![DATA_COMMAND | W, 1_021], 22),
    ] {
        for sent in 0..4 {
            let first = if sent == 0 { Vec::new() } else { data(1, &words[..sent]) };
            let list = [two_rows_of_five(), first, bad.clone()].concat();
            let ring = ring_with(0, &list);
            let (mut frame, pixels) = ([0; 10], [0, 4, 5, 9][sent]);
            let (state, answer) = quiet_run(state_at(0, list.len() as u32, 10), &ring, &mut frame, u32::MAX);
            let units = 1 + u32::from(sent > 0) + pixels + 1;
            assert_eq!((answer.word, answer.units, state.stop), (Word::Stopped, units, number));
            assert_eq!((state.place, state.completion, state.read), (None, 0, (list.len() - bad.len()) as u32));
            assert_eq!(frame[..pixels as usize], FIVE_AND_FIVE[..pixels as usize]);
            assert_eq!(state.registers, after_blt().registers);
            let state = restart(state).0;
            assert_eq!((state.stop, state.read, state.place, fit(&state)), (0, state.write, None, true));
            // the rest of the picture is data that nobody wants
            let rest = State { read: 900, write: 903, ..state };
            let (state, answer) = quiet_run(rest, &ring_with(900, &data(1, &words[..1])), &mut frame, u32::MAX);
            assert_eq!((answer.word, state.stop, state.completion), (Word::Stopped, 31, 0));
        }
    }
}

#[test]
fn host_and_24() {
    let number = |raster: u32, first: u32, width: u32, mode: u32| {
        let values = [(RASTER_MODE, raster), (SRC_OFFSET, 0xFF_FFF0 | first), (WID_HEIGHT, width << 16 | 1), (BLT_MODE, mode), (DST_OFFSET, 15)];
        judge(Kind::Blt, &font_registers(&values), 32)
    };
    for (format, depth) in DEPTHS {
        for first in 0..4 {
            for width in 0..4 {
                let straddles = match depth {
                    1 => false,
                    2 => first == 3 || first == 1 && width > 1,
                    _ => first > 0,
                };
                let wanted = if width == 0 { 25 } else if straddles { 24 } else { 0 };
                // F0h too; X and Y do nothing to it
                for mode in DIRECTIONS {
                    for code in [0xCC, 0xF0] {
                        assert_eq!(number(format | code, first, width, HOST | mode), wanted);
                        for mono in [UNPACKED, BYTE_PACKED] {
                            for bits in [0, SI, ST, SI | ST] {
                                assert_eq!(number(format | code | bits, first, width, HOST | mono | mode), if width == 0 { 25 } else { 0 });
                            }
                        }
                    }
                }
            }
            for mode in [0, UNPACKED, BYTE_PACKED, 3 << 6] {
                assert_eq!(number(format | 0xCC, first, 1, mode | 3), 24);
                assert_eq!(number(format | PI | 0xCC, first, 1, mode | HOST), 24);
            }
            assert_eq!(number(format | 0xCC, first, 1, 3 << 6 | HOST), 24);
            for bits in [SI, ST, SI | ST] {
                assert_eq!(number(format | bits | 0xCC, first, 1, HOST), 24);
            }
        }
    }
}

/// Under each pattern: the host's pixels as a source like any other.
#[test]
fn patterns_under_host_source() {
    let words = [0x0804_0201];
    // code 96h: P, S and D exclusive or
    for (raster, channel_3, pattern) in [
        (0, 0, [0x71, 0x71, 0x71, 0x71]),
        (1 << 8, 0, [0x71, 0x72, 0x71, 0x72]),
        (COLOUR, 0, [10, 20, 30, 40]),
        (1 << 8, CH3_PATTERN, [10, 20, 30, 40]),
    ] {
        let blt_words = host_blt(&[
            (RASTER_MODE, raster | 0x96),
            (WID_HEIGHT, 4 << 16 | 1),
            (PAT_COLOR_0, 0x71),
            (PAT_COLOR_1, 0x72),
            (PAT_DATA_0, 0x55),
            (CH3_MODE_STR, channel_3),
        ]);
        let load = vec![TABLE_LOAD | INDEX, 0x100, DATA | 1, 0x281E_140A];
        let list = [load, blt_words, data(1, &words)].concat();
        let mut frame = [0x80; 4];
        assert_eq!(draw(&list, &mut frame), 0);
        let wanted: [u8; 4] = std::array::from_fn(|i| 0x80 ^ pattern[i] ^ 1 << i);
        assert_eq!(frame, wanted);
    }
}

/// Row 3: places that some split of the words reaches, and the data command at the read pointer.
#[test]
fn row_3_of_data() {
    let blt = after_blt();
    let with = |drawn: i64, data: Data, read: u32, write: u32| State {
        read,
        write,
        place: Some(Place { kind: Kind::Blt, drawn, data }),
        ..blt
    };
    // words begin with pixels 0, 4, 5 and 9
    for drawn in 0..12 {
        let first = [0, 4, 5, 9].contains(&drawn);
        assert_eq!(fit(&with(drawn, Data::Wanted, 17, 17)), first, "pixel {drawn}");
    }
    for drawn in 0..10 {
        let word = [0, 0, 0, 0, 1, 2, 2, 2, 2, 3][drawn as usize];
        for before in -1..5 {
            for count in 1..6 {
                let fits = 0 <= before && before <= word && word < before + i64::from(count);
                assert_eq!(fit(&with(drawn, Data::Fed { count, w: false, before }, 17, 30)), fits);
            }
        }
    }
    let fed = |count, w, before| Data::Fed { count, w, before };
    for (data, read, write, wanted) in [
        // all its words wait
        (fed(4, false, 0), 17, 23, true),
        (fed(4, false, 0), 17, 22, false),
        (fed(4, false, 0), 17, 17, false),
        (fed(4, false, 0), 1_020, 2, true),
        (fed(4, false, 0), 1_020, 1, false),
        // with W up to the ring's end
        (fed(4, true, 0), 17, 0, true),
        (fed(4, true, 0), 17, 16, true),
        (fed(4, true, 0), 17, 1_023, false),
        // 22
        (fed(4, true, 0), 0, 100, false),
        (fed(4, true, 0), 1_018, 0, true),
        (fed(4, true, 0), 1_019, 10, false),
        // 32
        (fed(0, false, 0), 17, 30, false),
        (fed(1_021, false, 0), 17, 16, true),
        (fed(1_022, false, 0), 17, 16, false),
        (fed(u32::MAX - 2, false, 0), 17, 16, false),
    ] {
        assert_eq!(fit(&with(0, data, read, write)), wanted, "{data:?} {read} {write}");
    }
    // host source and the place go together
    assert!(!fit(&with(0, Data::Plain, 17, 30)));
    for select in [0, FRAME_MEMORY] {
        let mut registers = blt.registers;
        registers[BLT_MODE] = select;
        registers[SRC_OFFSET] = 0;
        for (data, wanted) in [(Data::Plain, true), (Data::Wanted, false), (fed(4, false, 0), false)] {
            assert_eq!(fit(&State { registers, ..with(0, data, 17, 30) }), wanted);
        }
    }
    // a stop with a place is unfit, and the calls say so
    let stopped = State { stop: 30, ..with(0, Data::Wanted, 17, 17) };
    assert_eq!(publish(stopped, 20).1.word, Word::Refused(3));
    assert_eq!(restart(stopped).1.word, Word::Refused(3));
}

// ---- W6: bases, large memory ----------------------------------------------------------------------------------------------------

const MIB: i64 = 1 << 20;
const GRANULE: i64 = 4 * MIB;

/// BASE_OFFSET with these bases of destination, source and channel 3.
fn bases(destination: u32, source: u32, channel_3: u32) -> u32 {
    destination << 22 | source << 12 | channel_3 << 2
}

/// A vector with every enable set; registers that are not named are 0.
fn vector(values: &[(usize, u32)]) -> Vec<u32> {
    let mut words = vec![1 << 29 | 0x1FFF];
    for register in VECTOR_WORDS {
        words.push(values.iter().find(|(named, _)| *named == register).map_or(0, |(_, value)| *value));
    }
    words
}

/// Registers of a BLT of one row at 8 bpp, a plain copy or, without a source, a fill.
fn row_registers(width: u32, values: &[(usize, u32)]) -> Registers {
    font_registers(&[&[(WID_HEIGHT, width << 16 | 1)], values].concat())
}

#[test]
fn raised_limits() {
    for (ring_len, frame_len, wanted) in [
        (16_385, 1, 0),
        (262_144, 1, 0),
        (262_145, 1, 1),
        (1_024, 16_777_217, 0),
        (1_024, 67_108_864, 0),
        (1_024, 67_108_865, 2),
        (262_144, 67_108_864, 0),
        (262_145, 67_108_865, 1),
    ] {
        let (state, answer) = setup(ring_len, frame_len);
        if wanted == 0 {
            assert_eq!((answer.word, answer.room, fit(&state)), (Word::Zero, ring_len - 1, true));
        } else {
            assert_eq!((answer.word, state), (Word::Refused(wanted), ZEROS));
        }
        assert_eq!(fit(&State { ring_len, frame_len, ..ZEROS }), wanted == 0);
    }
    // pointers up to the last word
    let state = State { read: 262_143, write: 262_142, ring_len: 262_144, frame_len: 1, ..ZEROS };
    assert_eq!((waiting(&state), room(state).1.room), (262_143, 0));
    assert_eq!(publish(state, 262_143).1.word, Word::Refused(6));
    assert_eq!(publish(state, 262_144).1.word, Word::Refused(5));
}

/// The same words twice, with bases 0 and 1: two screens of 4 MiB.
#[test]
fn two_screens() {
    let screen = |base: u32, colour: u32| {
        let values = [
            (RASTER_MODE, 6 << 28 | 0xF0),
            (DST_OFFSET, 0x1234),
            (STRIDE, 2_048),
            (WID_HEIGHT, 3 << 16 | 2),
            (PAT_COLOR_0, colour),
            (BASE_OFFSET, bases(base, 0, 0)),
        ];
        blt(DRAWING_BLT, &values)
    };
    let words = [screen(0, 0xA1B1), screen(1, 0xA2B2)].concat();
    let mut frame = vec![0; 2 * GRANULE as usize];
    assert_eq!(draw(&words, &mut frame), 0);
    let mut wanted = vec![0; 2 * GRANULE as usize];
    for (first, pixel) in [(0, [0xB1, 0xA1]), (GRANULE as usize, [0xB2, 0xA2])] {
        for row in [0, 2_048] {
            wanted[first + 0x1234 + row..][..6].copy_from_slice(&[pixel; 3].concat());
        }
    }
    assert!(frame == wanted);
}

/// The last byte of 64 MiB by base 15 and by each lower base that reaches it; one byte further is 27.
#[test]
fn the_last_byte_of_64_mib() {
    let mut frame = vec![0; 67_108_864];
    for (i, base) in (12..=15).enumerate() {
        let offset = (64 * MIB - 1 - GRANULE * i64::from(base)) as u32;
        let colour = 0x11 * (i as u32 + 1);
        let values = |offset: u32| {
            [(RASTER_MODE, 0xF0), (DST_OFFSET, offset), (WID_HEIGHT, 1 << 16 | 1), (PAT_COLOR_0, colour), (BASE_OFFSET, bases(base, 0, 0))]
        };
        assert_eq!(draw(&blt(DRAWING_BLT, &values(offset)), &mut frame), 0);
        assert_eq!(frame[67_108_862..], [0, colour as u8]);
        if base > 12 {
            assert_eq!(draw(&blt(DRAWING_BLT, &values(offset + 1)), &mut frame), 27);
        }
        assert_eq!(frame[0], 0);
    }
}

/// Never reduced: neither to the frame's length, nor to a region of 16 MiB, nor to 32 bits.
#[test]
fn far_bases() {
    let last = 0xFF_FFFF;
    for (base, offset, frame_len, wanted) in [
        (1_023, 0, 67_108_864, 27),
        (1_023, GRANULE as u32, 67_108_864, 27),
        (1_023, last, 67_108_864, 27),
        (1_020, last, 67_108_864, 27),
        (16, 0, 67_108_864, 27),
        (15, 0, 67_108_864, 0),
        (4, 0, 16_777_216, 27),
        (3, 4_194_303, 16_777_216, 0),
        (3, 4_194_304, 16_777_216, 27),
        (0, last, 16_777_216, 0),
        (1, last, 16_777_216, 27),
        (1, last, 20_971_520, 0),
        (1, last, 20_971_519, 27),
        (12, last, 67_108_864, 0),
        (13, last, 67_108_864, 27),
    ] {
        let by_destination = row_registers(1, &[(DST_OFFSET, offset), (BASE_OFFSET, bases(base, 0, 0))]);
        assert_eq!(judge(Kind::Blt, &by_destination, frame_len), wanted, "base {base}, offset {offset}");
        let mut registers = by_destination;
        registers[VEC_LEN] = 1 << 16;
        registers[VEC_ERR] = 0;
        assert_eq!(judge(Kind::Vector, &registers, frame_len), wanted);
        for mode in [0, UNPACKED, BYTE_PACKED] {
            let values = [(SRC_OFFSET, offset), (BLT_MODE, mode | FRAME_MEMORY), (BASE_OFFSET, bases(0, base, 0))];
            let by_source = row_registers(1, &values);
            assert_eq!(judge(Kind::Blt, &by_source, frame_len), if wanted == 0 { 0 } else { 28 });
        }
    }
    // across a region's end, and back before its first byte: on in memory
    let mut frame = vec![0; 20 * MIB as usize];
    for (mode, base, offset, first) in [(0, 0, last - 1, 16 * MIB - 2), (X_NEGATIVE, 1, 1, GRANULE - 2)] {
        let values = [(RASTER_MODE, 0xF0), (DST_OFFSET, offset), (WID_HEIGHT, 4 << 16 | 1), (PAT_COLOR_0, 0x77), (BLT_MODE, mode)];
        let values = [&values[..], &[(BASE_OFFSET, bases(base, 0, 0))]].concat();
        assert_eq!(draw(&blt(DRAWING_BLT, &values), &mut frame), 0);
        assert_eq!(frame[first as usize - 1..first as usize + 5], [0, 0x77, 0x77, 0x77, 0x77, 0]);
    }
    assert_eq!((frame[0], frame[1], frame[20 * MIB as usize - 1]), (0, 0, 0));
}

/// 28 just inside and just outside: in 6 MiB, 2 MiB behind base 1.
#[test]
fn source_bases_and_28() {
    let frame_len = 6 * MIB as u32;
    let end = 2 * MIB as u32;
    for (raster, mode, xlsbs, width, bytes) in [
        (0xCC, 0, 0, 5, 5),
        (6 << 28 | 0xCC, 0, 0, 5, 10),
        (8 << 28 | 0xF0, 0, 0, 5, 20),
        (0xCC, UNPACKED, 3, 13, 2),
        (8 << 28 | 0xCC, BYTE_PACKED, 3, 14, 3),
    ] {
        for (offset, wanted) in [(end - bytes, 0), (end - bytes + 1, 28), (end, 28)] {
            let values = [
                (RASTER_MODE, raster),
                (SRC_OFFSET, xlsbs << 26 | offset),
                (BLT_MODE, mode | FRAME_MEMORY),
                (BASE_OFFSET, bases(0, 1, 0)),
            ];
            assert_eq!(judge(Kind::Blt, &row_registers(width, &values), frame_len), wanted, "raster {raster:x}, mode {mode:x}");
            // by the destination's base it lies elsewhere
            let values = [&values[..3], &[(BASE_OFFSET, bases(1, 0, 0))]].concat();
            assert_eq!(judge(Kind::Blt, &row_registers(width, &values), frame_len), 0);
        }
    }
}

/// From one base into another: a copy and a font, bytes and bits as they stand there.
#[test]
fn from_base_to_base() {
    let mut frame = vec![0; 3 * GRANULE as usize];
    let (from, to) = (2 * GRANULE as usize + 100, GRANULE as usize + 50);
    frame[from..from + 3].copy_from_slice(&[0b1010_0000, 2, 3]);
    let values = [(DST_OFFSET, 50), (SRC_OFFSET, 100), (BASE_OFFSET, bases(1, 2, 0))];
    let copy = [&values[..], &[(RASTER_MODE, 0xCC), (WID_HEIGHT, 3 << 16 | 1), (BLT_MODE, FRAME_MEMORY)]].concat();
    assert_eq!(draw(&blt(DRAWING_BLT, &copy), &mut frame), 0);
    assert_eq!(frame[to - 1..to + 4], [0, 0b1010_0000, 2, 3, 0]);
    for mode in [UNPACKED, BYTE_PACKED] {
        let font = [
            &values[..],
            &[(RASTER_MODE, 0xCC), (WID_HEIGHT, 4 << 16 | 1), (SRC_COLOR_FG, FG), (SRC_COLOR_BG, BG), (BLT_MODE, mode | FRAME_MEMORY)],
        ]
        .concat();
        frame[to..to + 4].fill(0);
        assert_eq!(draw(&blt(DRAWING_BLT, &font), &mut frame), 0);
        assert_eq!(frame[to..to + 4], [FG as u8, BG as u8, FG as u8, BG as u8]);
    }
    assert_eq!(frame[from..from + 3], [0b1010_0000, 2, 3]);
    // 16 bits with X negative: both offsets name the last byte of their first pixel
    let back = [
        (RASTER_MODE, 6 << 28 | 0xCC),
        (DST_OFFSET, 1),
        (SRC_OFFSET, 103),
        (WID_HEIGHT, 2 << 16 | 1),
        (BASE_OFFSET, bases(1, 2, 0)),
        (BLT_MODE, X_NEGATIVE | FRAME_MEMORY),
    ];
    frame[from..from + 4].copy_from_slice(&[1, 2, 3, 4]);
    assert_eq!(draw(&blt(DRAWING_BLT, &back), &mut frame), 0);
    let first = GRANULE as usize;
    assert_eq!(frame[first - 3..first + 3], [0, 1, 2, 3, 4, 0]);
}

/// Fields that a command does not use: channel 3's base and bits 1:0 always, the source's but for a source in frame memory.
#[test]
fn bases_without_effect() {
    for idle in [1, 2, 3, bases(0, 0, 1), bases(0, 0, 1_023), 0xFFF] {
        for source in [0, 1, 1_023] {
            let base = idle | bases(0, source, 0);
            let from_frame = row_registers(4, &[(BLT_MODE, FRAME_MEMORY), (BASE_OFFSET, base)]);
            assert_eq!(judge(Kind::Blt, &from_frame, 16), if source == 0 { 0 } else { 28 });
            for (raster, channel_3) in [(0xF0, 0), (0x5F0, 0), (COLOUR | 0xF0, 0), (0xF0, CH3_PATTERN)] {
                let values = [
                    (RASTER_MODE, raster),
                    (DST_OFFSET, 3),
                    (WID_HEIGHT, 4 << 16 | 1),
                    (PAT_COLOR_0, 0x21),
                    (PAT_COLOR_1, 0x43),
                    (PAT_DATA_0, 0x50),
                    (CH3_MODE_STR, channel_3),
                ];
                let with = |base: u32| {
                    let load = vec![TABLE_LOAD | INDEX, 0x100, DATA | 1, 0x281E_140A];
                    let words = [load, blt(DRAWING_BLT, &[&values[..], &[(BASE_OFFSET, base)]].concat())].concat();
                    let mut frame = [0; 16];
                    assert_eq!(draw(&words, &mut frame), 0);
                    frame
                };
                assert_eq!(with(base), with(0));
            }
            // the host's words, mono and colour
            for mode in [0, UNPACKED, BYTE_PACKED] {
                let values = [(SRC_OFFSET, 1), (WID_HEIGHT, 3 << 16 | 1), (SRC_COLOR_FG, FG), (SRC_COLOR_BG, BG), (RASTER_MODE, 0xCC)];
                let with = |base: u32| {
                    let values = [&values[..], &[(BLT_MODE, mode | HOST), (BASE_OFFSET, base)]].concat();
                    let mut frame = [0; 16];
                    let words = [blt(DRAWING_BLT, &values), data(1, &[0x0403_A201])].concat();
                    assert_eq!(draw(&words, &mut frame), 0);
                    frame
                };
                assert_eq!(with(base), with(0));
                assert_ne!(with(base), [0; 16]);
            }
            let mut frame = [0; 16];
            let values = [(RASTER_MODE, 0xF0), (DST_OFFSET, 5), (VEC_LEN, 3 << 16 | 0xFFFF), (PAT_COLOR_0, 9), (VECTOR_MODE, 6)];
            assert_eq!(draw(&vector(&[&values[..], &[(BASE_OFFSET, base)]].concat()), &mut frame), 0);
            assert_eq!(frame, [0, 0, 0, 0, 0, 9, 9, 9, 0, 0, 0, 0, 0, 0, 0, 0]);
        }
    }
}

/// A vector with a base, up and to the left over a border of 4 MiB; the register stays for a BLT.
#[test]
fn vectors_with_a_base() {
    let mut frame = vec![0; 2 * GRANULE as usize];
    let values = [
        (RASTER_MODE, 6 << 28 | 0xF0),
        (DST_OFFSET, 2),
        (STRIDE, 100),
        (VEC_LEN, 3 << 16), // error 0: all steps are diagonal
        (PAT_COLOR_0, 0x2211),
        (BASE_OFFSET, bases(1, 0, 0)),
    ];
    let fill = blt(DRAWING_BLT & !(1 << 14), &[(RASTER_MODE, 0xF0), (DST_OFFSET, 7), (WID_HEIGHT, 1 << 16 | 1), (PAT_COLOR_0, 0x33)]);
    assert_eq!(draw(&[vector(&values), fill].concat(), &mut frame), 0);
    let mut wanted = vec![0; 2 * GRANULE as usize];
    for at in [2, -100, -202] {
        let at = (GRANULE + at) as usize;
        wanted[at..at + 2].copy_from_slice(&[0x11, 0x22]);
    }
    wanted[GRANULE as usize + 7] = 0x33;
    assert!(frame == wanted);
}

/// A data command of 65,535 words in the largest ring; bit 16 of its count word is reserved.
#[test]
fn counts_in_a_large_ring() {
    let state = State { ring_len: 262_144, write: 262_143, ..after_blt() };
    let mut ring = vec![0; 262_144];
    for (count_word, wanted) in [(65_535, Unit::AcceptData), (1, Unit::AcceptData), (0, Unit::Refuse(32)), (65_536, Unit::Refuse(32))] {
        (ring[17], ring[18]) = (DATA_COMMAND, count_word);
        assert_eq!(next_unit(&state, &ring), wanted);
    }
    // row 3: all words wait, yet no data command has that count
    for (count, wanted) in [(65_535, true), (65_536, false), (65_537, false), (131_072, false), (262_141, false), (262_142, false)] {
        let place = Some(Place { kind: Kind::Blt, drawn: 0, data: Data::Fed { count, w: false, before: 0 } });
        let saved = State { read: 17, write: 16, place, ..state };
        assert_eq!(waiting(&saved), 262_143);
        assert_eq!(fit(&saved), wanted, "count {count}");
        assert_eq!(room(saved).1.word == Word::Refused(3), !wanted);
    }
    // the smallest ring in which the largest count is good, and one word less
    for (ring_len, wanted) in [(65_538, true), (65_537, false)] {
        let place = Some(Place { kind: Kind::Blt, drawn: 0, data: Data::Fed { count: 65_535, w: false, before: 0 } });
        assert_eq!(fit(&State { ring_len, read: 17, write: 16, place, ..state }), wanted);
    }
}

// ---- The ring and the programs --------------------------------------------------------------------------------------------------

#[test]
fn ring_of_1024() {
    assert_eq!(setup(1_024, 16).1, Answer { word: Word::Zero, units: 0, room: 1_023 });
    let full = state_at(0, 1_023, 16);
    assert_eq!(room(full).1.room, 0);
    assert_eq!(publish(full, 0), (full, Answer { word: Word::Refused(6), units: 0, room: 0 }));
    assert_eq!(publish(full, 1_023).1.word, Word::Zero);
    assert_eq!(publish(full, 1_024).1.word, Word::Refused(5));

    // read 1,010, BLT, write 3: 17 waiting, whole; the same with W: 22
    let across = state_at(1_010, 3, 16);
    assert_eq!(waiting(&across), 17);
    assert_eq!(next_unit(&across, &ring_with(1_010, &fill(DRAWING_BLT, 0))), Unit::Load(Kind::Blt));
    assert_eq!(next_unit(&across, &ring_with(1_010, &fill(DRAWING_BLT | W, 0))), Unit::Refuse(22));

    // read 40 or 1,000, BLT with W, write behind it and up to the last word: waiting; write 0: done, read 0
    for read in [40, 1_000] {
        let ring = ring_with(read as usize, &fill(DRAWING_BLT | W, 0));
        for write in read + 17..1_024 {
            let (state, answer) = quiet_run(state_at(read, write, 16), &ring, &mut [0; 16], u32::MAX);
            assert_eq!((answer.word, answer.units, state.read), (Word::Waiting, 0, read));
        }
        let mut frame = [0; 16];
        let (state, answer) = quiet_run(state_at(read, 0, 16), &ring, &mut frame, u32::MAX);
        assert_eq!((answer.word, answer.units, answer.room, state.read, state.completion), (Word::Waiting, 5, 1_023, 0, 1));
        assert_eq!(frame[..5], [0x5A, 0x5A, 0x5A, 0x5A, 0]);
    }
}

#[test]
fn frame_of_16() {
    for (offset, wanted) in [(12, Word::Waiting), (13, Word::Stopped)] {
        let mut frame = [0; 16];
        let (state, answer) = quiet_run(state_at(0, 17, 16), &ring_with(0, &fill(DRAWING_BLT, offset)), &mut frame, u32::MAX);
        assert_eq!(answer.word, wanted);
        if wanted == Word::Stopped {
            // "moves nothing but the stop number"
            assert_eq!((state, answer.units), (State { stop: 27, ..state_at(0, 17, 16) }, 1));
            assert_eq!(frame, [0; 16]);
            assert_eq!(restart(state).0, state_at(17, 17, 16));
        } else {
            assert_eq!(frame[12..], [0x5A; 4]);
            assert_eq!(restart(state).1.word, Word::Refused(7));
        }
    }
}

#[test]
fn completion_wraps() {
    let state = State { completion: u32::MAX, ..state_at(0, 17, 16) };
    let (state, _) = quiet_run(state, &[0; RING], &mut [0; 16], u32::MAX);
    assert_eq!((state.completion, state.read), (0, 17));
}

#[test]
fn rows_1_to_4() {
    for (ring_len, frame_len, wanted) in
        [(0, 0, 1), (64, 1, 1), (1_023, 1, 1), (262_145, 0, 1), (1_024, 0, 2), (262_144, 67_108_865, 2)]
    {
        let (state, answer) = setup(ring_len, frame_len);
        assert_eq!((state, answer), (ZEROS, Answer { word: Word::Refused(wanted), units: 0, room: 0 }));
    }
    let good = state_at(0, 0, 16);
    let drawing = |drawn| {
        let mut state = good;
        state.registers[WID_HEIGHT] = 4 << 16 | 1;
        State { place: place_at(drawn), ..state }
    };
    assert!(fit(&good) && fit(&drawing(0)) && fit(&drawing(3)) && fit(&State { stop: 32, ..good }));
    assert!(fit(&State { table: [u32::MAX; 512], ..drawing(3) }));
    let unfit = [
        ZEROS,
        State { ring_len: 64, ..good },
        State { ring_len: 1_023, ..good },
        State { frame_len: 0, ..good },
        State { read: 1_024, ..good },
        State { write: 1_024, ..good },
        State { stop: 20, ..good },
        State { stop: 33, ..good },
        State { stop: 21, ..drawing(0) },
        State { frame_len: 3, ..drawing(0) },
        drawing(4),
    ];
    for state in unfit {
        assert_eq!(publish(state, 0).1.word, Word::Refused(3));
        assert_eq!(room(state).1.word, Word::Refused(3));
        assert_eq!(restart(state).1.word, Word::Refused(3));
        assert_eq!(quiet_run(state, &[0; RING], &mut [0; 16], 1).1.word, Word::Refused(3));
    }
    assert_eq!(quiet_run(good, &[0; RING + 1], &mut [0; 16], 1).1.word, Word::Refused(4));
    assert_eq!(quiet_run(good, &[0; RING], &mut [0; 15], 1).1.word, Word::Refused(4));
}

#[test]
fn replay_example() {
    let words = blt(
        DRAWING_BLT,
        &[(RASTER_MODE, 0xF0), (DST_OFFSET, 10), (STRIDE, 16), (WID_HEIGHT, 4 << 16 | 2), (PAT_COLOR_0, 0x5A)],
    );
    let mut input: Vec<u8> = [1_024u32, 64, 17, 100].iter().flat_map(|word| word.to_le_bytes()).collect();
    input.extend(ring_with(0, &words).iter().flat_map(|word| word.to_le_bytes()));
    assert_eq!(input.len(), 4 * 1_028);
    let (lines, frame) = replay(&input, &mut Nobody);
    assert_eq!(lines, "retired=1\nunits=9\nread=17\nwrite=17\nstate=waiting\nrefusal=0\n");
    for (at, byte) in frame.iter().enumerate() {
        let inside = (10..14).contains(&at) || (26..30).contains(&at);
        assert_eq!(*byte, if inside { 0x5A } else { 0 });
    }
    input.push(0);
    assert_eq!(replay(&input, &mut Nobody), ("recording=bad\n".to_string(), Vec::new()));

    // with the ring of 64 words that it had
    input.truncate(4 * 68);
    input[..4].copy_from_slice(&64u32.to_le_bytes());
    assert_eq!(replay(&input, &mut Nobody).0, "retired=0\nunits=0\nread=0\nwrite=0\nstate=refused\nrefusal=1\n");

    // the same by a trace
    let mut records = vec![1_024u32, 64];
    for (at, word) in words.iter().enumerate() {
        records.extend([0, at as u32, *word]);
    }
    records.extend([1, 17, 0, 2, 100, 0]);
    let input: Vec<u8> = records.iter().flat_map(|word| word.to_le_bytes()).collect();
    let lines = trace(&input, &mut Nobody);
    assert_eq!(
        lines.lines().nth(2),
        Some("call=run answer=waiting units=9 room=1023 read=17 write=17 retired=1 stop=0 drawing=none")
    );
    assert_eq!(lines.lines().nth(3), Some(format!("frame_crc32={:08x}", crc32(&frame)).as_str()));
}

#[test]
fn crc() {
    assert_eq!(crc32(b"123456789"), 0xCBF4_3926);
}
