//! The exported form: where each number lies, the sizes, and that a refused call writes no byte.

mod common;

use common::{at_stage, put, ready, waiting, MOVED, NEW, OLD, OTHER_CELL, PRINTED, STAGES};
use plain::bytes::{
    audit_bytes, buffer, decode, fill_bytes, fresh_bytes, row_of_words, run_bytes, step_bytes,
    words_of_row, SIZE,
};
use plain::state::{at, EMPTY};
use plain::{numbers, Access, Archive, Phase, Row, Stage, Step};

const fn result(answer: u64, value: u64) -> u64 {
    answer << 32 | value
}

/// Where the numbers lie, written out once more.
const ARENA: usize = 668;
const TABLE: usize = 33_436;

fn set(buf: &mut [u8], at: usize, bytes: &[u8]) {
    buf[at..at + bytes.len()].copy_from_slice(bytes);
}

fn set_row_word(buf: &mut [u8], row: usize, word: usize, number: u32) {
    set(buf, TABLE + 48 * row + 4 * word, &number.to_le_bytes());
}

fn steps_bytes(steps: &[Step]) -> Vec<u8> {
    let words = steps.iter().flatten();
    words.flat_map(|word| word.to_le_bytes()).collect()
}

#[test]
fn fresh_writes_every_byte() {
    let mut expected = vec![0; SIZE];
    expected[..512].fill(255);
    for row in 0..8 {
        set_row_word(&mut expected, row, 1, 1);
        for hold in 2..6 {
            set_row_word(&mut expected, row, hold, 65_535);
        }
    }
    for garbage in [0, 1, 170, 255] {
        let mut buf = vec![garbage; 33_820];
        assert_eq!(fresh_bytes(&mut buf), result(30, 0));
        assert!(buf == expected);
    }
    assert!(buffer(&Archive::fresh()) == expected);
}

#[test]
fn each_number_lies_at_its_place() {
    let mut archive = Archive::fresh();
    archive.control.directory[0] = 0x0102;
    archive.control.directory[255] = 0x0304;
    archive.control.map.0[0] = 0x1122_3344_5566_7788;
    archive.control.map.0[15] = 0x8000_0000_0000_0001;
    archive.control.moving.stage = Stage::Third;
    archive.control.moving.meter = 0x0A0B_0C0D;
    archive.control.moving.from = 0x1A1B;
    archive.control.moving.target = 0x2A2B;
    archive.control.moving.copied = 0x3A3B_3C3D;
    archive.control.begun = 0x4A4B_4C4D;
    archive.control.committed = 0x5A5B_5C5D;
    archive.control.aborted = 0x6A6B_6C6D;
    archive.arena[0] = 0x7A7B_7C7D;
    archive.arena[8_191] = 0x8A8B_8C8D;
    archive.table[0].swaps = 0x9A9B_9C9D;
    archive.table[7].phase = Phase::Waiting {
        cell: 0xAAAB_ACAD,
        access: Access::Write {
            hold: 0xBABB_BCBD,
            word: 0xCACB_CCCD,
            value: 0xDADB_DCDD,
        },
    };
    let buf = buffer(&archive);
    let holds = |at: usize, bytes: &[u8]| assert_eq!(buf[at..at + bytes.len()], *bytes, "at {at}");
    holds(0, &[2, 1]);
    holds(2, &[255, 255]);
    holds(510, &[4, 3]);
    holds(512, &[0x88, 0x77, 0x66, 0x55, 0x44, 0x33, 0x22, 0x11]);
    holds(632, &[1, 0, 0, 0, 0, 0, 0, 0x80]);
    holds(640, &[4, 0, 0, 0, 0x0D, 0x0C, 0x0B, 0x0A]);
    holds(648, &[0x1B, 0x1A, 0x2B, 0x2A, 0x3D, 0x3C, 0x3B, 0x3A]);
    holds(656, &[0x4D, 0x4C, 0x4B, 0x4A, 0x5D, 0x5C, 0x5B, 0x5A]);
    holds(664, &[0x6D, 0x6C, 0x6B, 0x6A, 0x7D, 0x7C, 0x7B, 0x7A]);
    holds(33_432, &[0x8D, 0x8C, 0x8B, 0x8A]);
    holds(33_436 + 24, &[0x9D, 0x9C, 0x9B, 0x9A]);
    holds(33_820 - 20, &[5, 0, 0, 0, 0xAD, 0xAC, 0xAB, 0xAA]);
    holds(33_820 - 12, &[0xBD, 0xBC, 0xBB, 0xBA]);
    holds(
        33_820 - 8,
        &[0xCD, 0xCC, 0xCB, 0xCA, 0xDD, 0xDC, 0xDB, 0xDA],
    );
    assert!(decode(&buf) == Some(archive));
}

#[test]
fn stages_are_numbered_in_their_order() {
    let stages = [Stage::Idle].into_iter().chain(STAGES);
    for (number, stage) in stages.enumerate() {
        let archive = at_stage(stage);
        let buf = buffer(&archive);
        assert_eq!(buf[640..644], [number as u8, 0, 0, 0]);
        assert!(decode(&buf) == Some(archive));
        assert_eq!(audit_bytes(&buf), result(30, 0));
    }
}

#[test]
fn each_row_has_one_encoding() {
    let read = Access::Read { hold: 1, word: 9 };
    let write = Access::Write {
        hold: 2,
        word: 8,
        value: 7,
    };
    let phases = [
        (Phase::Resting, [0, 0, 0, 0, 0]),
        (
            Phase::Ready {
                cell: 5,
                access: read,
            },
            [2, 5, 1, 9, 0],
        ),
        (
            Phase::Ready {
                cell: 5,
                access: write,
            },
            [3, 5, 2, 8, 7],
        ),
        (
            Phase::Waiting {
                cell: 6,
                access: read,
            },
            [4, 6, 1, 9, 0],
        ),
        (
            Phase::Waiting {
                cell: 6,
                access: write,
            },
            [5, 6, 2, 8, 7],
        ),
    ];
    for (phase, end) in phases {
        let row = Row {
            attached: true,
            passed: false,
            holds: [5, 65_535, 70_000, u32::MAX],
            swaps: 11,
            phase,
        };
        let words = words_of_row(&row);
        assert_eq!(words[..7], [1, 0, 5, 65_535, 70_000, u32::MAX, 11]);
        assert_eq!(words[7..], end);
        assert_eq!(row_of_words(words), Some(row));
    }
}

/// Words that mean no row, as changes to a resting row, a reading and a writing one.
const NO_ROWS: [(u32, usize, u32); 17] = [
    (0, 0, 2),
    (0, 0, u32::MAX),
    (0, 1, 2),
    (0, 1, 256),
    (0, 7, 1),
    (0, 7, 6),
    (0, 7, u32::MAX),
    (0, 8, 1),
    (0, 9, 1),
    (0, 10, 1),
    (0, 11, 1),
    (2, 11, 1),
    (4, 11, u32::MAX),
    (3, 7, 1),
    (5, 7, 6),
    (3, 7, 256 + 3),
    (5, 0, 257),
];

/// A state at the second barrier whose client 1 has a phase of this number.
fn with_phase(phase: u32) -> Archive {
    let mut archive = at_stage(Stage::Second);
    let access = Access::Write {
        hold: 0,
        word: 3,
        value: 0,
    };
    archive.table[0].phase = match phase {
        0 => Phase::Resting,
        2 => ready(OLD, 0, 3),
        3 => Phase::Ready { cell: OLD, access },
        4 => waiting(OLD, 0, 3),
        _ => Phase::Waiting { cell: OLD, access },
    };
    archive
}

#[test]
fn row_bytes_that_mean_no_row_break_r6_in_their_turn() {
    for (phase, word, number) in NO_ROWS {
        let mut buf = buffer(&with_phase(phase));
        assert_eq!(audit_bytes(&buf), result(30, 0));
        set_row_word(&mut buf, 0, word, number);
        assert_eq!(audit_bytes(&buf), result(30, 6), "{phase} {word} {number}");
        let mut step = buf.clone();
        assert_eq!(step_bytes(&mut step, [9, 0, 0, 0, 0]), result(2, 0));
        assert!(step == buf);
        assert_eq!(fill_bytes(&buf), result(2, 0));

        // R7 and R8 come after, R5 to R1 before.
        set(&mut buf, 656, &[99, 0, 0, 0]);
        assert_eq!(audit_bytes(&buf), result(30, 6));
        set(&mut buf, 652, &[15, 0, 0, 0]);
        assert_eq!(audit_bytes(&buf), result(30, 5));
        set(&mut buf, ARENA + 4 * at(OTHER_CELL), &[81]);
        assert_eq!(audit_bytes(&buf), result(30, 4));
        set(&mut buf, 639, &[128]);
        assert_eq!(audit_bytes(&buf), result(30, 3));
        set(&mut buf, ARENA + 4 * at(NEW), &[81]);
        assert_eq!(audit_bytes(&buf), result(30, 2));
        set(&mut buf, 0, &[0, 4]);
        assert_eq!(audit_bytes(&buf), result(30, 1));
    }
}

#[test]
fn a_write_of_0_is_a_row_and_a_read_of_0_too() {
    for phase in [2, 3, 4, 5] {
        let mut buf = buffer(&with_phase(phase));
        assert_eq!(audit_bytes(&buf), result(30, 0));
        set_row_word(&mut buf, 0, 11, 9);
        let rule = if phase % 2 == 0 { 6 } else { 0 };
        assert_eq!(audit_bytes(&buf), result(30, rule));
    }
}

#[test]
fn a_stage_that_is_none_breaks_r2_in_its_turn() {
    for stage in STAGES.into_iter().chain([Stage::Idle]) {
        for number in [5, 6, 256, 1 << 24, u32::MAX] {
            let mut buf = buffer(&at_stage(stage));
            set(&mut buf, 640, &number.to_le_bytes());
            assert_eq!(audit_bytes(&buf), result(30, 2));
            set_row_word(&mut buf, 0, 0, 2);
            set(&mut buf, 639, &[128]);
            assert_eq!(audit_bytes(&buf), result(30, 2));
            let before = buf.clone();
            assert_eq!(step_bytes(&mut buf, [0, 4, 0, 0, 0]), result(2, 0));
            assert!(buf == before);
            set(&mut buf, 0, &[0, 4]);
            assert_eq!(audit_bytes(&buf), result(30, 1));
        }
    }
}

#[test]
fn a_move_of_a_meter_above_255() {
    for high in [1, 2, 3] {
        let mut buf = buffer(&at_stage(Stage::First));
        buf[644 + high] = 1;
        assert_eq!(audit_bytes(&buf), result(30, 2));
        let mut idle = buffer(&at_stage(Stage::Idle));
        idle[644 + high] = 1;
        assert_eq!(audit_bytes(&idle), result(30, 5));
    }
}

#[test]
fn wrong_sizes_get_1_and_nothing_is_written() {
    let sound = buffer(&at_stage(Stage::First));
    for size in [0, 1, 668, 33_436, 33_819, 33_821, 2 * 33_820] {
        let mut buf = sound.clone();
        buf.resize(size, 7);
        let before = buf.clone();
        assert_eq!(fresh_bytes(&mut buf), result(1, 0));
        assert_eq!(step_bytes(&mut buf, [9, 9, 9, 9, 9]), result(1, 0));
        assert_eq!(step_bytes(&mut buf, [0, 1, 3, 0, 0]), result(1, 0));
        assert_eq!(run_bytes(&mut buf, &[], &mut []), result(1, 0));
        assert_eq!(fill_bytes(&buf), result(1, 0));
        assert_eq!(audit_bytes(&buf), result(1, 0));
        assert!(buf == before);
    }
}

#[test]
fn wrong_sizes_of_a_run() {
    let sound = buffer(&Archive::fresh());
    let mut unsound = sound.clone();
    unsound[656] = 1;
    let sizes = [
        (0, 0, 30),
        (20, 8, 30),
        (40, 16, 30),
        (19, 8, 1),
        (21, 8, 1),
        (16, 8, 1),
        (20, 7, 1),
        (20, 9, 1),
        (20, 4, 1),
        (20, 0, 1),
        (20, 12, 1),
        (20, 16, 1),
        (0, 8, 1),
        (0, 1, 1),
        (4_096 * 20, 4_096 * 8, 30),
        (4_097 * 20, 4_097 * 8, 1),
        (4_097 * 20, 4_096 * 8, 1),
    ];
    for (steps, slots, answer) in sizes {
        let steps = vec![9; steps];
        for (before, answer) in [(&sound, answer), (&unsound, answer.min(2))] {
            let mut buf = before.clone();
            let mut answers = vec![7; slots];
            assert_eq!(run_bytes(&mut buf, &steps, &mut answers), result(answer, 0));
            assert!(buf == **before);
            let slot = match answer {
                30 => [3, 0, 0, 0, 0, 0, 0, 0],
                _ => [7; 8],
            };
            assert!(answers
                .chunks(8)
                .all(|answer| *answer == slot[..answer.len()]));
        }
    }
}

#[test]
fn the_printed_run_by_bytes() {
    let mut buf = vec![0; SIZE];
    fresh_bytes(&mut buf);
    for (step, (answer, value)) in PRINTED {
        assert_eq!(
            step_bytes(&mut buf, step),
            result(answer.into(), value.into())
        );
    }
    assert_eq!(fill_bytes(&buf), result(30, 2));
    assert_eq!(audit_bytes(&buf), result(30, 0));
    assert!(buf == buffer(&common::printed()));

    let mut run = buffer(&Archive::fresh());
    let steps = steps_bytes(&PRINTED.map(|(step, _)| step));
    let mut answers = vec![0; 8 * PRINTED.len()];
    assert_eq!(run_bytes(&mut run, &steps, &mut answers), result(30, 0));
    assert!(run == buf);
    let expected = PRINTED
        .iter()
        .flat_map(|&(_, (answer, value))| [answer, value]);
    let expected: Vec<u8> = expected.flat_map(u32::to_le_bytes).collect();
    assert_eq!(answers, expected);
}

#[test]
fn values_fill_the_low_half_of_a_result() {
    let mut archive = Archive::fresh();
    put(&mut archive, 3, 0, 1);
    common::client(&mut archive, 1, &[1]);
    archive.arena[at(1) + 2] = u32::MAX;
    archive.table[0].phase = ready(1, 0, 0);
    let mut buf = buffer(&archive);
    assert_eq!(
        step_bytes(&mut buf, [1, 16, 0, 0, 0]),
        34 << 32 | 0xFFFF_FFFF
    );
}

#[test]
fn refused_steps_write_no_byte() {
    // A state with junk in free cells, which must stay too.
    let mut archive = at_stage(Stage::Copying);
    archive.arena[8_000] = 5;
    let before = buffer(&archive);
    let refused = [
        ([9, 1, 0, 0, 0], 3),
        ([0, 5, 0, 0, 0], 4),
        ([0, 1, 256, 0, 0], 5),
        ([5, 17, 0, 0, 0], 6),
        ([0, 1, MOVED, 0, 0], 7),
        ([0, 3, MOVED, 0, 0], 8),
        ([1, 16, 0, 0, 0], 9),
        ([1, 12, 200, 0, 0], 10),
        ([1, 14, 0, 14, 0], 14),
    ];
    for (step, number) in refused {
        let mut buf = before.clone();
        assert_eq!(step_bytes(&mut buf, step), result(number, 0));
        assert!(buf == before);
    }
}

#[test]
fn every_sound_buffer_stands_for_its_archive() {
    for seed in 0..60 {
        let buf = plain::generate::sound_buffer(seed, 400);
        let archive = decode(&buf).unwrap();
        assert_eq!(audit_bytes(&buf), result(30, 0));
        assert_eq!(numbers(archive.audit()), (30, 0));
        assert!(buffer(&archive) == buf);
    }
    assert_eq!(EMPTY, 65_535);
}
