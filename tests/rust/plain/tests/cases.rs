//! The cases of "On either side of each line", from the end of the printed run unless said.

mod common;

use common::{accepted, after, printed, refused, take, ADVANCE, PRINTED};
use plain::generate::age;
use plain::{numbers, Archive};

#[test]
fn the_printed_run() {
    let archive = printed();
    let control = &archive.control;
    assert_eq!(
        (control.begun, control.committed, control.aborted),
        (1, 0, 0)
    );
    assert_eq!(archive.table.iter().map(|row| row.swaps).sum::<u32>(), 1);
    assert_eq!(numbers(archive.fill()), (30, 2));
    assert_eq!(numbers(archive.audit()), (30, 0));
}

fn case_1() -> Archive {
    let mut archive = printed();
    for words in 1..=8 {
        take(&mut archive, &[(ADVANCE, (24, words))]);
    }
    let rest = [1, 17, 0, 0, 0];
    take(
        &mut archive,
        &[(ADVANCE, (22, 0)), (rest, (30, 0)), (ADVANCE, (26, 0))],
    );
    archive
}

#[test]
fn case_1_a_move_is_called_off_after_a_swap() {
    let archive = case_1();
    assert_eq!(numbers(archive.fill()), (30, 1));
    assert_eq!(archive.control.aborted, 1);
    assert_eq!(archive.control.moving, plain::Move::NONE);
}

#[test]
fn case_2_the_last_word_of_kind_0() {
    let archive = printed();
    for code in [14, 15] {
        accepted(&archive, [1, code, 0, 5, 3], (31, 1));
        refused(&archive, [1, code, 0, 6, 3], 14);
    }
}

#[test]
fn case_3_the_arena_holds_128_records_of_kind_3() {
    let mut archive = Archive::fresh();
    for meter in 0..128 {
        take(&mut archive, &[([0, 1, meter, 3, 0], (20, 8 * meter))]);
    }
    assert_eq!(numbers(archive.fill()), (30, 1_024));
    for kind in 0..4 {
        refused(&archive, [0, 1, 128, kind, 0], 12);
    }
}

#[test]
fn case_4_retire_in_a_move_of_a_held_record_and_of_a_free_one() {
    let retire = [0, 2, 2, 0, 0];
    refused(&printed(), retire, 8);
    let mut archive = case_1();
    refused(&archive, retire, 11);
    take(
        &mut archive,
        &[([1, 13, 0, 0, 0], (30, 0)), (retire, (30, 0))],
    );
    assert_eq!(numbers(archive.fill()), (30, 0));
}

#[test]
fn case_5_a_single_record_has_nowhere_to_go() {
    for kind in 0..4 {
        let archive = after(&[([0, 1, 5, kind, 0], (20, 0))]);
        refused(&archive, [0, 3, 5, 0, 0], 13);
    }
}

#[test]
fn case_6_the_last_client_and_the_keeper() {
    let archive = printed();
    accepted(&archive, [8, 10, 0, 0, 0], (30, 0));
    refused(&archive, [9, 10, 0, 0, 0], 3);
    refused(&archive, [0, 10, 0, 0, 0], 4);
}

#[test]
fn case_7_a_write_meets_the_commit_and_lands_in_the_new_block() {
    let mut archive = after(&PRINTED[..9]);
    for words in 1..=8 {
        take(&mut archive, &[(ADVANCE, (24, words))]);
    }
    let go = [1, 16, 0, 0, 0];
    take(
        &mut archive,
        &[
            ([1, 17, 0, 0, 0], (30, 0)),
            ([1, 15, 0, 5, 77], (32, 1)),
            (ADVANCE, (25, 0)),
            (go, (33, 0)),
            (go, (35, 0)),
        ],
    );
    // Cell 0 is the new block, cell 1 the old one; payload word 5 is word 7.
    assert_eq!((archive.arena[7], archive.arena[8 + 7]), (77, 0));
    let rest = [1, 17, 0, 0, 0];
    take(
        &mut archive,
        &[(ADVANCE, (22, 0)), (rest, (30, 0)), (ADVANCE, (27, 0))],
    );
    assert_eq!(archive.table[0].holds[0], 0);
    assert_eq!(numbers(archive.fill()), (30, 1));
}

#[test]
fn case_8_go_when_resting_and_read_when_ready() {
    let mut archive = printed();
    refused(&archive, [1, 16, 0, 0, 0], 9);
    take(&mut archive, &[([1, 14, 0, 0, 0], (31, 1))]);
    refused(&archive, [1, 14, 0, 0, 0], 8);
    take(&mut archive, &[([1, 16, 0, 0, 0], (34, 0))]);
    refused(&archive, [1, 16, 0, 0, 0], 9);
}

#[test]
fn case_9_the_last_meter_the_last_hold_and_the_last_move() {
    let mut archive = Archive::fresh();
    take(
        &mut archive,
        &[([0, 1, 255, 0, 0], (20, 0)), ([0, 1, 254, 0, 0], (20, 1))],
    );
    refused(&archive, [0, 1, 256, 0, 0], 5);
    take(
        &mut archive,
        &[([1, 10, 0, 0, 0], (30, 0)), ([1, 12, 254, 3, 0], (30, 0))],
    );
    refused(&archive, [1, 12, 255, 4, 0], 5);
    take(&mut archive, &[([0, 2, 255, 0, 0], (30, 0))]);

    let mut below = archive.clone();
    age(&mut below, u32::MAX - 1);
    take(&mut below, &[([0, 3, 254, 0, 0], (21, 0))]);
    assert_eq!(below.control.begun, u32::MAX);
    let mut at_end = archive;
    age(&mut at_end, u32::MAX);
    refused(&at_end, [0, 3, 254, 0, 0], 15);
}
