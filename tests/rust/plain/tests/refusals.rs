//! Each number of refusal, from both sides, and the lowest where several apply. Number 1 is
//! tested with the exported form, number 2 with the rules.

mod common;

use common::{
    accepted, after, at_stage, client, cover, put, ready, refused, waiting, MOVED, OLD, OTHER,
    OTHER_CELL, STAGES,
};
use plain::generate::age;
use plain::{Archive, Stage};

const LARGE: u32 = u32::MAX;

/// Meter 3 of kind 0 at cell 1, below it a free cell; client 1 is attached and holds it in hold
/// 2; client 2 is attached and holds nothing.
fn small() -> Archive {
    let mut archive = Archive::fresh();
    put(&mut archive, 3, 0, 1);
    client(&mut archive, 1, &[]);
    archive.table[0].holds[2] = 1;
    client(&mut archive, 2, &[]);
    assert_eq!(archive.first_broken_rule(), 0);
    archive
}

#[test]
fn number_2_comes_before_all_that_a_step_says() {
    let mut archive = small();
    archive.control.begun = 1;
    for step in [[9, 99, 0, 0, 0], [0, 1, 4, 0, 0], [1, 17, 0, 0, 0]] {
        refused(&archive, step, 2);
    }
    archive.control.aborted = 1;
    refused(&archive, [9, 99, 0, 0, 0], 3);
    accepted(&archive, [0, 1, 4, 0, 0], (20, 0));
}

#[test]
fn number_3_who_above_8() {
    accepted(&small(), [8, 10, 0, 0, 0], (30, 0));
    for who in [9, 10, 256, LARGE] {
        for code in [0, 1, 10, 99] {
            refused(&small(), [who, code, 0, 0, 0], 3);
        }
    }
}

#[test]
fn number_4_codes_of_each_party() {
    let archive = small();
    for code in (0..=40).chain([256 + 1, 256 + 10, LARGE]) {
        let keeper = plain::numbers(archive.clone().step([0, code, LARGE, LARGE, 0])).0;
        assert_eq!(keeper == 4, !(1..=4).contains(&code), "keeper {code}");
        for who in 1..=8 {
            let client = plain::numbers(archive.clone().step([who, code, LARGE, LARGE, 0])).0;
            assert_eq!(client == 4, !(10..=17).contains(&code), "client {code}");
        }
    }
    // Before what its numbers say.
    refused(&archive, [0, 5, 256, 4, 0], 4);
    refused(&archive, [3, 18, 256, 4, 0], 4);
}

#[test]
fn number_5_meter_kind_and_hold_where_a_step_uses_them() {
    let archive = small();
    for above in [256, 65_535, 65_536 + 3, LARGE] {
        refused(&archive, [0, 1, above, 0, 0], 5);
        refused(&archive, [0, 2, above, 0, 0], 5);
        refused(&archive, [0, 3, above, 0, 0], 5);
        refused(&archive, [1, 12, above, 0, 0], 5);
    }
    for above in [4, 255, 65_536, LARGE] {
        refused(&archive, [0, 1, 4, above, 0], 5);
        refused(&archive, [1, 12, 3, above, 0], 5);
        refused(&archive, [1, 13, above, 0, 0], 5);
        refused(&archive, [1, 14, above, 0, 0], 5);
        refused(&archive, [1, 15, above, 0, 0], 5);
        // Before "not attached".
        refused(&archive, [3, 14, above, 0, 0], 5);
    }
    accepted(&archive, [0, 1, 255, 3, 0], (20, 2));
    accepted(&archive, [1, 12, 3, 3, 0], (30, 0));
}

#[test]
fn numbers_that_a_step_does_not_use_may_be_anything() {
    let archive = small();
    accepted(&archive, [0, 1, 4, 0, LARGE], (20, 0));
    accepted(&archive, [0, 3, 3, LARGE, LARGE], (21, 0));
    accepted(
        &at_stage(Stage::First),
        [0, 4, LARGE, LARGE, LARGE],
        (23, 0),
    );
    accepted(&archive, [3, 10, LARGE, LARGE, LARGE], (30, 0));
    accepted(&archive, [1, 11, LARGE, LARGE, LARGE], (30, 0));
    accepted(&archive, [1, 12, 3, 0, LARGE], (30, 0));
    accepted(&archive, [1, 13, 2, LARGE, LARGE], (30, 0));
    accepted(&archive, [1, 14, 2, 0, LARGE], (31, 1));
    accepted(&archive, [1, 17, LARGE, LARGE, LARGE], (30, 0));
    let mut free = archive.clone();
    free.table[0].holds[2] = plain::state::EMPTY;
    accepted(&free, [0, 2, 3, LARGE, LARGE], (30, 0));
    let mut busy = archive;
    busy.table[0].phase = ready(1, 2, 0);
    accepted(&busy, [1, 16, LARGE, LARGE, LARGE], (34, 0));
}

#[test]
fn number_6_a_client_that_is_not_attached() {
    let archive = small();
    for code in 11..=17 {
        refused(&archive, [3, code, 3, 3, 0], 6);
        // Before an absent meter and an empty hold, and what the phase would say.
        refused(&archive, [3, code, 0, 0, 0], 6);
    }
    // Before a word too high.
    refused(&archive, [3, 14, 0, 99, 0], 6);
    accepted(&archive, [3, 10, 0, 0, 0], (30, 0));
}

#[test]
fn number_7_attached_already_and_admitted_already() {
    let mut archive = small();
    refused(&archive, [1, 10, 0, 0, 0], 7);
    refused(&archive, [0, 1, 3, 1, 0], 7);
    accepted(&archive, [0, 1, 2, 1, 0], (20, 2));
    // Line 8 of the table does not name ATTACH.
    archive.table[0].phase = ready(1, 2, 0);
    refused(&archive, [1, 10, 0, 0, 0], 7);
}

#[test]
fn number_7_comes_before_a_full_arena() {
    let mut archive = Archive::fresh();
    for meter in 0..128 {
        put(&mut archive, meter, 3, 8 * meter);
    }
    refused(&archive, [0, 1, 127, 0, 0], 7);
    refused(&archive, [0, 1, 128, 0, 0], 12);
}

#[test]
fn number_8_a_client_that_is_busy() {
    let mut archive = at_stage(Stage::Second);
    for phase in [ready(OLD, 0, 1), waiting(OLD, 0, 1)] {
        archive.table[0].phase = phase;
        for code in [11, 12, 13, 14, 15, 17] {
            refused(&archive, [1, code, 0, 0, 0], 8);
            // Before an absent meter, an empty hold and a word too high.
            refused(
                &archive,
                [1, code, 3, if code == 12 { 3 } else { 99 }, 0],
                8,
            );
        }
        assert!(archive.clone().step([1, 16, 0, 0, 0]).is_ok());
    }
}

#[test]
fn number_8_a_move_in_hand() {
    for stage in STAGES {
        let archive = at_stage(stage);
        for meter in [MOVED, OTHER, 100] {
            refused(&archive, [0, 2, meter, 0, 0], 8);
            refused(&archive, [0, 3, meter, 0, 0], 8);
        }
        refused(&archive, [0, 3, 256, 0, 0], 5);
        accepted(&archive, [0, 1, 100, 0, 0], (20, 0));
    }
    let mut archive = at_stage(Stage::Idle);
    accepted(&archive, [0, 3, MOVED, 0, 0], (21, 0));
    archive.table[0].holds = common::NO_HOLDS;
    accepted(&archive, [0, 2, MOVED, 0, 0], (30, 0));
}

#[test]
fn number_9_go_at_rest_and_advance_without_a_move() {
    let mut archive = at_stage(Stage::Idle);
    refused(&archive, [1, 16, 0, 0, 0], 9);
    refused(&archive, [0, 4, 0, 0, 0], 9);
    archive.table[0].phase = ready(OTHER_CELL, 1, 0);
    accepted(&archive, [1, 16, 0, 0, 0], (34, 0));
    accepted(&at_stage(Stage::First), [0, 4, 0, 0, 0], (23, 0));
}

#[test]
fn number_10_absent_meters_and_empty_holds() {
    let archive = small();
    refused(&archive, [0, 2, 4, 0, 0], 10);
    refused(&archive, [0, 3, 4, 0, 0], 10);
    refused(&archive, [1, 12, 4, 0, 0], 10);
    for hold in [0, 1, 3] {
        for code in [13, 14, 15] {
            // Before a word too high.
            refused(&archive, [1, code, hold, 0, 0], 10);
            refused(&archive, [1, code, hold, 99, 0], 10);
        }
    }
    accepted(&archive, [1, 13, 2, 0, 0], (30, 0));
    accepted(&archive, [1, 14, 2, 0, 0], (31, 1));
    accepted(&archive, [1, 15, 2, 0, 0], (31, 1));
    accepted(&archive, [1, 12, 3, 0, 0], (30, 0));
}

#[test]
fn number_10_comes_before_the_end_of_begun() {
    let mut archive = small();
    age(&mut archive, u32::MAX);
    refused(&archive, [0, 3, 4, 0, 0], 10);
    refused(&archive, [0, 3, 3, 0, 0], 15);
}

#[test]
fn number_11_any_row_and_any_hold() {
    for who in 1..=8 {
        for hold in 0..4 {
            let mut archive = Archive::fresh();
            put(&mut archive, 3, 0, 1);
            client(&mut archive, who, &[]);
            accepted(&archive, [0, 2, 3, 0, 0], (30, 0));
            archive.table[who - 1].holds[hold] = 1;
            refused(&archive, [0, 2, 3, 0, 0], 11);
        }
    }
}

#[test]
fn number_12_a_run_long_enough() {
    // All is used but the runs 100..101 and 200..206.
    let mut archive = Archive::fresh();
    for (from, to) in [(0, 100), (102, 200), (207, 1_024)] {
        cover(&mut archive, from, to);
    }
    assert_eq!(archive.first_broken_rule(), 0);
    accepted(&archive, [0, 1, 255, 0, 0], (20, 100));
    accepted(&archive, [0, 1, 255, 1, 0], (20, 100));
    accepted(&archive, [0, 1, 255, 2, 0], (20, 200));
    refused(&archive, [0, 1, 255, 3, 0], 12);
}

#[test]
fn number_13_a_run_below_the_record() {
    // Cell 0 and cells 2 and 3 are free below meter 2, whatever lies above is free too.
    let mut archive = Archive::fresh();
    put(&mut archive, 1, 0, 1);
    put(&mut archive, 2, 1, 4);
    put(&mut archive, 3, 2, 6);
    accepted(&archive, [0, 3, 1, 0, 0], (21, 0));
    accepted(&archive, [0, 3, 2, 0, 0], (21, 2));
    refused(&archive, [0, 3, 3, 0, 0], 13);
    // The lowest record of all has none below.
    let lowest = after(&[([0, 1, 1, 0, 0], (20, 0))]);
    refused(&lowest, [0, 3, 1, 0, 0], 13);
    // Before the end of begun.
    age(&mut archive, u32::MAX);
    refused(&archive, [0, 3, 3, 0, 0], 13);
    refused(&archive, [0, 3, 2, 0, 0], 15);
}

#[test]
fn number_14_each_payload_size() {
    for (kind, payload) in [6, 14, 30, 62].into_iter().enumerate() {
        let mut archive = Archive::fresh();
        put(&mut archive, 3, kind as u32, 1);
        client(&mut archive, 1, &[1]);
        for code in [14, 15] {
            accepted(&archive, [1, code, 0, payload - 1, 0], (31, 1));
            refused(&archive, [1, code, 0, payload, 0], 14);
            refused(&archive, [1, code, 0, LARGE, 0], 14);
        }
    }
}

#[test]
fn number_14_in_the_old_block_too() {
    let mut archive = at_stage(Stage::Third);
    archive.table[0].passed = false;
    archive.table[0].holds[0] = OLD;
    accepted(&archive, [1, 14, 0, 13, 0], (31, common::NEW));
    refused(&archive, [1, 14, 0, 14, 0], 14);
}
