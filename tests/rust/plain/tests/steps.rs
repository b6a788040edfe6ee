//! What each step changes, word by word: the expected state is put together by hand and
//! compared as a whole.

mod common;

use common::{
    at_stage, client, put, ready, waiting, MOVED, NEW, NO_HOLDS, OLD, OTHER_CELL, STAGES,
};
use plain::state::{at, EMPTY};
use plain::{numbers, Access, Archive, Move, Phase, Stage, Step};

/// Takes a step on a sound state and compares the whole state after it.
#[track_caller]
fn changes(before: &Archive, step: Step, answer: (u32, u32), change: impl FnOnce(&mut Archive)) {
    assert_eq!(before.first_broken_rule(), 0, "the state before");
    let mut expected = before.clone();
    change(&mut expected);
    let mut actual = before.clone();
    assert_eq!(numbers(actual.step(step)), answer, "{step:?}");
    assert!(
        actual.control == expected.control,
        "control {:?}",
        actual.control
    );
    assert!(actual.table == expected.table, "table {:?}", actual.table);
    for (i, (got, wanted)) in actual.arena.iter().zip(&expected.arena).enumerate() {
        assert_eq!(got, wanted, "word {i}");
    }
    assert_eq!(actual.first_broken_rule(), 0, "the state after");
}

#[test]
fn fresh() {
    let archive = Archive::fresh();
    assert!(archive.arena.iter().all(|&word| word == 0));
    assert!(archive
        .control
        .directory
        .iter()
        .all(|&entry| entry == 65_535));
    assert_eq!(archive.control.map.used(), 0);
    let counts = (
        archive.control.begun,
        archive.control.committed,
        archive.control.aborted,
    );
    assert_eq!(counts, (0, 0, 0));
    for row in archive.table {
        assert!(!row.attached && row.passed && row.holds == [65_535; 4] && row.swaps == 0);
        assert_eq!(row.phase, Phase::Resting);
    }
    assert_eq!(numbers(archive.audit()), (30, 0));
    assert_eq!(numbers(archive.fill()), (30, 0));
}

#[test]
fn admit_writes_the_record_and_nothing_else() {
    for (kind, words) in [8, 16, 32, 64].into_iter().enumerate() {
        let mut archive = at_stage(Stage::Idle);
        // What lay in the free cells before.
        archive.arena[..160].fill(5);
        changes(&archive, [0, 1, 77, kind as u32, 0], (20, 0), |archive| {
            archive.control.directory[77] = 0;
            archive.control.map.0[0] |= (1 << (words / 8)) - 1;
            archive.arena[..words].fill(0);
            archive.arena[1] = 4 * 77 + kind as u32;
        });
    }
}

#[test]
fn admit_at_a_cell_other_than_0() {
    let mut archive = Archive::fresh();
    put(&mut archive, 0, 3, 0);
    put(&mut archive, 1, 3, 8);
    changes(&archive, [0, 1, 255, 1, 0], (20, 16), |archive| {
        archive.control.directory[255] = 16;
        archive.control.map.0[0] |= 0b11 << 16;
        archive.arena[128] = 32;
        archive.arena[129] = 1_021;
    });
}

#[test]
fn retire_keeps_the_words() {
    let mut archive = at_stage(Stage::Idle);
    archive.table[0].holds = NO_HOLDS;
    archive.arena[at(OLD) + 5] = 8;
    changes(&archive, [0, 2, MOVED, 0, 0], (30, 0), |archive| {
        archive.control.directory[MOVED as usize] = 65_535;
        archive.control.map.0[0] &= !(0b11 << OLD);
    });
}

#[test]
fn begin() {
    let mut archive = at_stage(Stage::Idle);
    // The lowest run of two cells is neither the single cell 0 nor one above the record.
    put(&mut archive, 100, 0, 1);
    archive.arena[at(2)] = 9;
    archive.table[1].passed = false;
    archive.table[2].swaps = 3;
    changes(&archive, [0, 3, MOVED, 0, 0], (21, 2), |archive| {
        archive.control.map.0[0] |= 0b11 << 2;
        archive.arena[at(OLD)] = 2 * OLD + 1;
        archive.control.begun = 6;
        archive.table[0].passed = false;
        archive.table[1].passed = false;
        archive.control.moving = Move {
            stage: Stage::First,
            meter: MOVED,
            from: OLD as u16,
            target: 2,
            copied: 0,
        };
    });
}

#[test]
fn every_barrier_waits_for_every_row() {
    for stage in [Stage::First, Stage::Second, Stage::Third] {
        for who in [1, 2, 8] {
            let mut archive = at_stage(stage);
            if who == 8 {
                client(&mut archive, 8, &[]);
            }
            assert_ne!(numbers(archive.clone().step([0, 4, 0, 0, 0])), (22, 0));
            archive.table[who - 1].passed = false;
            changes(&archive, [0, 4, 0, 0, 0], (22, 0), |_| {});
        }
    }
}

#[test]
fn advance_at_the_first_barrier() {
    changes(
        &at_stage(Stage::First),
        [0, 4, 0, 0, 0],
        (23, 0),
        |archive| {
            archive.control.moving.stage = Stage::Copying;
        },
    );
}

#[test]
fn advance_copies_one_word_and_waits_for_nobody() {
    for word in 0..16 {
        let mut archive = at_stage(Stage::Copying);
        archive.control.moving.copied = word;
        for i in 2..16 {
            archive.arena[at(OLD) + i] = 1_000 + i as u32;
            archive.arena[at(NEW) + i] = 77;
        }
        if word < 2 {
            archive.arena[at(NEW) + 1] = 77;
        }
        if word < 1 {
            archive.arena[at(NEW)] = 77;
        }
        archive.table[0].passed = false;
        let copy = match word {
            0 => 2 * NEW,
            1 => 4 * MOVED + 1,
            _ => 1_000 + word,
        };
        changes(&archive, [0, 4, 0, 0, 0], (24, word + 1), |archive| {
            archive.arena[at(NEW) + word as usize] = copy;
            archive.control.moving.copied = word + 1;
            if word == 15 {
                archive.control.moving.stage = Stage::Second;
                archive.table[0].passed = false;
                archive.table[1].passed = false;
            }
        });
    }
}

#[test]
fn the_replicas_header_is_plain_even_where_the_flag_is_gone() {
    let mut archive = at_stage(Stage::Copying);
    archive.control.moving.copied = 0;
    archive.arena[at(OLD)] = 2 * OLD;
    changes(&archive, [0, 4, 0, 0, 0], (24, 1), |archive| {
        archive.arena[at(NEW)] = 2 * NEW;
        archive.control.moving.copied = 1;
    });
}

#[test]
fn advance_at_the_second_barrier_commits() {
    let archive = at_stage(Stage::Second);
    changes(&archive, [0, 4, 0, 0, 0], (25, NEW), |archive| {
        archive.arena[at(OLD)] = 2 * NEW;
        archive.control.directory[MOVED as usize] = NEW as u16;
        archive.control.committed += 1;
        archive.control.moving.stage = Stage::Third;
        archive.table[0].passed = false;
        archive.table[1].passed = false;
    });
}

#[test]
fn advance_at_the_second_barrier_calls_off() {
    let mut archive = at_stage(Stage::Second);
    archive.arena[at(OLD)] = 2 * OLD;
    changes(&archive, [0, 4, 0, 0, 0], (26, 0), |archive| {
        archive.control.map.0[0] &= !(0b11 << NEW);
        archive.control.aborted += 1;
        archive.control.moving = Move::NONE;
    });
}

#[test]
fn advance_at_the_third_barrier_frees_the_old_block() {
    changes(
        &at_stage(Stage::Third),
        [0, 4, 0, 0, 0],
        (27, 0),
        |archive| {
            archive.control.map.0[0] &= !(0b11 << OLD);
            archive.control.moving = Move::NONE;
        },
    );
}

#[test]
fn attach_and_detach_leave_swaps() {
    for stage in STAGES {
        let mut archive = at_stage(stage);
        archive.table[2].swaps = 4;
        archive.table[0].swaps = 3;
        archive.table[0].passed = false;
        changes(&archive, [3, 10, 0, 0, 0], (30, 0), |archive| {
            archive.table[2].attached = true;
        });
        changes(&archive, [1, 11, 0, 0, 0], (30, 0), |archive| {
            archive.table[0].attached = false;
            archive.table[0].passed = true;
            archive.table[0].holds = NO_HOLDS;
        });
    }
}

#[test]
fn open_takes_the_directorys_cell_at_every_stage() {
    for stage in STAGES {
        let mut archive = at_stage(stage);
        archive.table[0].passed = false;
        let cell = if stage == Stage::Third { NEW } else { OLD };
        for hold in 0..4 {
            changes(&archive, [1, 12, MOVED, hold, 0], (30, 0), |archive| {
                archive.table[0].holds[hold as usize] = cell;
            });
        }
    }
}

#[test]
fn drop_empties_one_hold() {
    changes(
        &at_stage(Stage::Idle),
        [1, 13, 1, 0, 0],
        (30, 0),
        |archive| {
            archive.table[0].holds[1] = EMPTY;
        },
    );
}

#[test]
fn loads_of_a_plain_header() {
    let archive = at_stage(Stage::Second);
    changes(&archive, [1, 14, 1, 5, 9], (31, OTHER_CELL), |archive| {
        archive.table[0].phase = ready(OTHER_CELL, 1, 5);
    });
    changes(&archive, [1, 15, 1, 5, 9], (31, OTHER_CELL), |archive| {
        archive.table[0].phase = Phase::Ready {
            cell: OTHER_CELL,
            access: Access::Write {
                hold: 1,
                word: 5,
                value: 9,
            },
        };
    });
}

#[test]
fn loads_of_a_flagged_header() {
    let archive = at_stage(Stage::First);
    changes(&archive, [1, 14, 0, 13, 9], (32, OLD), |archive| {
        archive.table[0].phase = waiting(OLD, 0, 13);
    });
    changes(&archive, [1, 15, 0, 13, 9], (32, OLD), |archive| {
        archive.table[0].phase = Phase::Waiting {
            cell: OLD,
            access: Access::Write {
                hold: 0,
                word: 13,
                value: 9,
            },
        };
    });
}

#[test]
fn loads_through_the_old_block_go_to_the_new_one() {
    let mut archive = at_stage(Stage::Third);
    archive.table[0].passed = false;
    archive.table[0].holds[0] = OLD;
    changes(&archive, [1, 14, 0, 0, 0], (31, NEW), |archive| {
        archive.table[0].phase = ready(NEW, 0, 0);
    });
}

#[test]
fn a_swap_that_wins() {
    for stage in [Stage::First, Stage::Copying, Stage::Second] {
        let mut archive = at_stage(stage);
        archive.table[0].phase = waiting(OLD, 0, 3);
        archive.table[0].swaps = 4;
        changes(&archive, [1, 16, 0, 0, 0], (33, 1), |archive| {
            archive.arena[at(OLD)] = 2 * OLD;
            archive.table[0].phase = ready(OLD, 0, 3);
            archive.table[0].swaps = 5;
        });
    }
}

#[test]
fn a_swap_that_another_client_won() {
    let mut archive = at_stage(Stage::Copying);
    archive.arena[at(OLD)] = 2 * OLD;
    archive.table[0].phase = waiting(OLD, 0, 3);
    changes(&archive, [1, 16, 0, 0, 0], (33, 0), |archive| {
        archive.table[0].phase = ready(OLD, 0, 3);
        archive.table[0].swaps = 1;
    });
}

#[test]
fn a_swap_that_the_commit_won() {
    let mut archive = at_stage(Stage::Third);
    archive.table[0].passed = false;
    archive.table[0].holds[0] = OLD;
    archive.table[0].phase = waiting(OLD, 0, 3);
    changes(&archive, [1, 16, 0, 0, 0], (33, 0), |archive| {
        archive.table[0].phase = ready(NEW, 0, 3);
        archive.table[0].swaps = 1;
    });
}

#[test]
fn a_swap_on_another_record_leaves_the_moved_one_flagged() {
    let mut archive = at_stage(Stage::Copying);
    archive.table[0].phase = waiting(OTHER_CELL, 1, 3);
    archive.table[0].swaps = 3;
    changes(&archive, [1, 16, 0, 0, 0], (33, 0), |archive| {
        archive.table[0].phase = ready(OTHER_CELL, 1, 3);
        archive.table[0].swaps = 4;
    });
}

#[test]
fn a_read_and_a_write_are_done_where_the_row_is_ready() {
    for cell in [OLD, NEW] {
        let mut archive = at_stage(Stage::Third);
        archive.table[0].passed = false;
        archive.table[0].holds[0] = OLD;
        archive.arena[at(OLD) + 2 + 13] = 100 + OLD;
        archive.arena[at(NEW) + 2 + 13] = 100 + NEW;
        archive.table[0].phase = ready(cell, 0, 13);
        changes(&archive, [1, 16, 0, 0, 0], (34, 100 + cell), |archive| {
            archive.table[0].phase = Phase::Resting;
        });
        let access = Access::Write {
            hold: 0,
            word: 13,
            value: u32::MAX,
        };
        archive.table[0].phase = Phase::Ready { cell, access };
        changes(&archive, [1, 16, 0, 0, 0], (35, 0), |archive| {
            archive.arena[at(cell) + 2 + 13] = u32::MAX;
            archive.table[0].phase = Phase::Resting;
        });
    }
}

#[test]
fn rest_follows_every_hold() {
    let mut archive = at_stage(Stage::Third);
    archive.table[0].passed = false;
    archive.table[0].holds = [OLD, EMPTY, OTHER_CELL, OLD];
    changes(&archive, [1, 17, 0, 0, 0], (30, 0), |archive| {
        archive.table[0].holds = [NEW, EMPTY, OTHER_CELL, NEW];
        archive.table[0].passed = true;
    });
    // Before the commit a flagged header's target is the record itself.
    let mut archive = at_stage(Stage::First);
    archive.table[0].passed = false;
    changes(&archive, [1, 17, 0, 0, 0], (30, 0), |archive| {
        archive.table[0].passed = true;
    });
}

#[test]
fn a_run_equals_its_steps_one_by_one() {
    let steps = plain::generate::schedule(11, 600);
    let mut one_by_one = Archive::fresh();
    let mut expected = Vec::new();
    for &step in &steps {
        let (number, value) = numbers(one_by_one.step(step));
        expected.extend([number, value]);
    }
    let words: Vec<u32> = steps.iter().flatten().copied().collect();
    let mut answers = vec![99; 1_200];
    let mut run = Archive::fresh();
    assert_eq!(numbers(run.run(&words, &mut answers)), (30, 0));
    assert_eq!(answers, expected);
    assert!(run == one_by_one);
}

#[test]
fn a_run_refuses_wrong_sizes_and_unsound_states_whole() {
    let admit = [0, 1, 3, 0, 0];
    let fresh = Archive::fresh();
    for (words, slots) in [
        (4, 2),
        (6, 2),
        (5, 0),
        (5, 1),
        (5, 3),
        (5, 4),
        (0, 2),
        (10, 2),
    ] {
        let steps: Vec<u32> = admit.iter().cycle().take(words).copied().collect();
        let mut answers = vec![99; slots];
        let mut archive = fresh.clone();
        assert_eq!(
            numbers(archive.run(&steps, &mut answers)),
            (1, 0),
            "{words} {slots}"
        );
        assert!(archive == fresh && answers.iter().all(|&word| word == 99));
    }
    let mut unsound = fresh;
    unsound.control.begun = 1;
    let before = unsound.clone();
    let mut answers = [99; 2];
    assert_eq!(numbers(unsound.run(&admit, &mut answers)), (2, 0));
    assert_eq!(answers, [99; 2]);
    assert_eq!(numbers(unsound.run(&[], &mut [])), (2, 0));
    assert_eq!(numbers(unsound.run(&[0], &mut [])), (1, 0));
    assert!(unsound == before);
    assert_eq!(numbers(Archive::fresh().run(&[], &mut [])), (30, 0));
}

#[test]
fn a_run_has_at_most_4096_steps() {
    for (count, answer) in [(4_096, (30, 0)), (4_097, (1, 0))] {
        let steps = vec![9; 5 * count];
        let mut answers = vec![99; 2 * count];
        let outcome = Archive::fresh().run(&steps, &mut answers);
        assert_eq!(numbers(outcome), answer);
        let slot = if answer.0 == 30 { [3, 0] } else { [99, 99] };
        assert!(answers.chunks(2).all(|answer| answer == slot));
    }
}
