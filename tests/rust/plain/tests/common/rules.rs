//! Each rule of a sound state, broken on its own, and from both sides where one number allows. What
//! a state must give is asked by the file that includes this one: `meets` in its root.

use crate::common::{
    at_stage, client, put, ready, waiting, MOVED, NEW, NO_HOLDS, OLD, OTHER, OTHER_CELL, STAGES,
};
use plain::state::{at, label, EMPTY};
use plain::{Archive, Header, Move, Phase, Stage};

/// Changes a sound state and asks for the first broken rule.
#[track_caller]
fn gives(rule: u32, mut archive: Archive, change: impl FnOnce(&mut Archive)) {
    assert_eq!(archive.first_broken_rule(), 0, "the state before");
    change(&mut archive);
    crate::meets(rule, archive);
}

const IDLE: Stage = Stage::Idle;
const BEFORE_COMMIT: [Stage; 3] = [Stage::First, Stage::Copying, Stage::Second];

#[test]
fn the_states_put_together_here_are_sound() {
    for stage in STAGES.into_iter().chain([IDLE]) {
        gives(0, at_stage(stage), |_| {});
    }
}

#[test]
fn r1_records_lie_within_the_arena() {
    let cells = [1, 2, 4, 8];
    for (kind, cells) in cells.into_iter().enumerate() {
        let kind = kind as u32;
        let last = 1_024 - cells;
        gives(0, Archive::fresh(), |archive| put(archive, 3, kind, last));
        if cells > 1 {
            gives(1, Archive::fresh(), |archive| {
                archive.control.directory[3] = last as u16 + 1;
                archive.arena[at(last + 1)] = Header::plain(last + 1);
                archive.arena[at(last + 1) + 1] = label(3, kind);
            });
        }
    }
    // A fresh arena has label 0 everywhere: meter 0, kind 0.
    gives(3, Archive::fresh(), |a| a.control.directory[0] = 1_023);
    for entry in [1_024, 1_025, 8_192, 65_534] {
        gives(1, Archive::fresh(), |a| a.control.directory[0] = entry);
    }
    gives(0, Archive::fresh(), |a| a.control.directory[0] = 65_535);
}

#[test]
fn r1_labels_name_their_meter() {
    for wrong in [
        label(MOVED - 1, 1),
        label(MOVED + 1, 1),
        label(MOVED + 256, 1),
        u32::MAX,
    ] {
        gives(1, at_stage(IDLE), |a| a.arena[at(OLD) + 1] = wrong);
    }
    // Another kind is no matter of R1, but its cells are not those of the map.
    gives(3, at_stage(IDLE), |a| {
        a.arena[at(OLD) + 1] = label(MOVED, 0)
    });
    gives(3, at_stage(IDLE), |a| {
        a.arena[at(OLD) + 1] = label(MOVED, 2)
    });
    // Two meters cannot share a record.
    gives(1, at_stage(IDLE), |a| a.control.directory[3] = OLD as u16);
}

#[test]
fn r2_a_stage_that_is_none() {
    for stage in STAGES.into_iter().chain([IDLE]) {
        gives(2, at_stage(stage), |a| {
            a.control.moving.stage = Stage::Unknown
        });
    }
}

#[test]
fn r2_a_move_names_a_present_meter_with_its_old_cell() {
    for stage in BEFORE_COMMIT {
        for meter in [OTHER, 100, 256, 256 + MOVED, u32::MAX] {
            gives(2, at_stage(stage), |a| a.control.moving.meter = meter);
        }
        for from in [OLD - 1, OLD + 1, OTHER_CELL, NEW, 1_024, 65_535] {
            gives(2, at_stage(stage), |a| a.control.moving.from = from as u16);
        }
        // An absent entry is nobody's old cell, even where the numbers are equal.
        gives(2, at_stage(stage), |a| {
            a.control.moving.meter = 100;
            a.control.moving.from = 65_535;
        });
    }
}

/// A state whose move has its target at the arena's end, or one cell further.
fn with_target_at(stage: Stage, target: u32) -> impl FnOnce(&mut Archive) {
    move |archive| {
        archive.control.map.free(NEW, 2);
        archive.control.moving.target = target as u16;
        for cell in target..1_024 {
            archive.control.map.take(cell, 1);
        }
        archive.arena[at(target)] = Header::plain(target);
        archive.arena[at(target) + 1] = label(MOVED, 1);
        assert!(stage.is_before_commit());
    }
}

#[test]
fn r2_the_target_block_lies_within_the_arena() {
    for stage in BEFORE_COMMIT {
        gives(0, at_stage(stage), with_target_at(stage, 1_022));
        gives(2, at_stage(stage), with_target_at(stage, 1_023));
        for target in [1_024, 65_535] {
            gives(2, at_stage(stage), |a| a.control.moving.target = target);
        }
    }
}

#[test]
fn r2_replica_words_are_right_once_copied() {
    let wrong_header = |copied: u32| {
        move |a: &mut Archive| {
            a.control.moving.copied = copied;
            a.arena[at(NEW)] += 1;
        }
    };
    let wrong_label = |copied: u32| {
        move |a: &mut Archive| {
            a.control.moving.copied = copied;
            a.arena[at(NEW) + 1] ^= 1;
        }
    };
    let copying = || at_stage(Stage::Copying);
    gives(0, copying(), wrong_header(0));
    gives(2, copying(), wrong_header(1));
    gives(2, copying(), wrong_header(15));
    gives(0, copying(), wrong_label(0));
    gives(0, copying(), wrong_label(1));
    gives(2, copying(), wrong_label(2));
    gives(2, copying(), wrong_label(15));
    // Words copied decides, not the stage: what is wrong with the number itself is for R5.
    gives(0, at_stage(Stage::First), wrong_header(0));
    gives(2, at_stage(Stage::First), wrong_header(1));
    gives(5, at_stage(Stage::First), wrong_label(1));
    gives(2, at_stage(Stage::First), wrong_label(2));
    gives(5, at_stage(Stage::Second), wrong_header(0));
    gives(2, at_stage(Stage::Second), wrong_header(16));
    gives(5, at_stage(Stage::Second), wrong_label(1));
    gives(2, at_stage(Stage::Second), wrong_label(16));
    gives(2, copying(), wrong_label(u32::MAX));
    // Other words of the replica are nobody's matter.
    gives(0, at_stage(Stage::Second), |a| a.arena[at(NEW) + 2] = 5);
}

#[test]
fn r2_in_the_third_barrier_the_entry_is_the_target() {
    let third = || at_stage(Stage::Third);
    for meter in [OTHER, 100, 256, 256 + MOVED, u32::MAX] {
        gives(2, third(), |a| a.control.moving.meter = meter);
    }
    for target in [NEW - 1, NEW + 1, OLD, OTHER_CELL, 1_024, 65_535] {
        gives(2, third(), |a| a.control.moving.target = target as u16);
    }
    // An absent entry is no target, even where the numbers are equal: a state in which all else
    // would fit.
    gives(2, third(), |a| {
        a.control.directory[MOVED as usize] = 65_535;
        a.control.moving.target = 65_535;
        a.control.map.free(NEW, 2);
        a.arena[at(OLD)] = 2 * 65_535;
        a.table[0].holds = NO_HOLDS;
    });
}

#[test]
fn r2_in_the_third_barrier_the_old_block_has_the_same_label() {
    let third = || at_stage(Stage::Third);
    for other in [label(MOVED, 0), label(MOVED, 2), label(OTHER, 1), u32::MAX] {
        gives(2, third(), |a| a.arena[at(OLD) + 1] = other);
    }
    for from in [1_024, 65_535] {
        gives(2, third(), |a| a.control.moving.from = from);
    }
    let old_at = |from: u32| {
        move |a: &mut Archive| {
            a.control.map.free(OLD, 2);
            a.control.moving.from = from as u16;
            a.arena[at(from)] = Header::plain(NEW);
            a.arena[at(from) + 1] = label(MOVED, 1);
            for cell in from..1_024 {
                a.control.map.take(cell, 1);
            }
        }
    };
    gives(0, third(), old_at(1_022));
    gives(2, third(), old_at(1_023));
}

#[test]
fn r3_used_cells_are_exactly_those_of_the_blocks() {
    for stage in STAGES.into_iter().chain([IDLE]) {
        for cell in [0, OLD + 2, OLD - 1, NEW + 2, OTHER_CELL + 1, 64, 1_023] {
            gives(3, at_stage(stage), |a| a.control.map.take(cell, 1));
        }
        for cell in [OLD, OLD + 1, OTHER_CELL] {
            if stage != IDLE || cell == OTHER_CELL {
                gives(3, at_stage(stage), |a| a.control.map.free(cell, 1));
            }
        }
    }
    for stage in STAGES {
        for cell in [NEW, NEW + 1] {
            gives(3, at_stage(stage), |a| a.control.map.free(cell, 1));
        }
    }
    // As many cells as before, but others.
    for cell in [0, OTHER_CELL - 1, OTHER_CELL + 1, OTHER_CELL + 64] {
        gives(3, at_stage(IDLE), |a| {
            a.control.map.free(OTHER_CELL, 1);
            a.control.map.take(cell, 1);
        });
    }
}

#[test]
fn r3_no_cell_lies_in_two_records() {
    // Kind 1 at cells 50 and 51, another record at 51 or 52.
    for (cell, rule) in [(51, 3), (52, 0)] {
        gives(rule, at_stage(IDLE), |a| {
            put(a, 100, 1, 50);
            put(a, 101, 0, cell);
        });
    }
    gives(3, at_stage(IDLE), |a| {
        put(a, 100, 2, 50);
        put(a, 101, 1, 49);
    });
}

#[test]
fn r3_no_cell_lies_in_a_record_and_in_the_other_block() {
    // The replica's first cell is the old block's second, or it has a cell of another record.
    for target in [OLD - 1, OLD, OLD + 1, OTHER_CELL, OTHER_CELL - 1] {
        gives(3, at_stage(Stage::First), |a| {
            a.control.map.free(NEW, 2);
            a.control.map.take(target, 2);
            a.control.moving.target = target as u16;
        });
    }
    for target in [OLD - 2, OLD + 2, OTHER_CELL - 2, OTHER_CELL + 1] {
        gives(0, at_stage(Stage::First), |a| {
            a.control.map.free(NEW, 2);
            a.control.map.take(target, 2);
            a.control.moving.target = target as u16;
        });
    }
    // The old block over the new one.
    gives(3, at_stage(Stage::Third), |a| {
        a.control.map.free(OLD, 2);
        a.control.moving.from = NEW as u16;
    });
}

#[test]
fn r4_headers_of_present_records() {
    for header in [
        2 * OLD + 1,
        2 * OLD - 1,
        2 * OLD + 2,
        2 * OLD - 2,
        0,
        u32::MAX,
    ] {
        gives(4, at_stage(IDLE), |a| a.arena[at(OLD)] = header);
    }
    for stage in BEFORE_COMMIT {
        gives(0, at_stage(stage), |a| a.arena[at(OLD)] = 2 * OLD + 1);
        gives(0, at_stage(stage), |a| a.arena[at(OLD)] = 2 * OLD);
        for header in [2 * OLD - 1, 2 * OLD + 2, 2 * NEW, 2 * NEW + 1] {
            gives(4, at_stage(stage), |a| a.arena[at(OLD)] = header);
        }
        gives(4, at_stage(stage), |a| a.arena[at(OTHER_CELL)] += 1);
    }
}

#[test]
fn r4_headers_in_the_third_barrier() {
    let third = || at_stage(Stage::Third);
    for header in [2 * NEW + 1, 2 * OLD] {
        gives(4, third(), |a| a.arena[at(NEW)] = header);
    }
    for header in [
        2 * NEW + 1,
        2 * NEW - 1,
        2 * NEW + 2,
        2 * OLD,
        2 * OLD + 1,
        0,
    ] {
        gives(4, third(), |a| a.arena[at(OLD)] = header);
    }
    gives(4, third(), |a| a.arena[at(OTHER_CELL)] += 1);
}

#[test]
fn r5_words_copied_at_each_stage() {
    let sound = [
        (Stage::First, 0..=0),
        (Stage::Copying, 0..=15),
        (Stage::Second, 16..=16),
        (Stage::Third, 16..=16),
    ];
    for (stage, range) in sound {
        for copied in [0, 1, 2, 8, 14, 15, 16, 17, 32, 256, 65_536, u32::MAX] {
            let rule = if range.contains(&copied) { 0 } else { 5 };
            gives(rule, at_stage(stage), |a| a.control.moving.copied = copied);
        }
    }
}

#[test]
fn r5_no_move_has_no_numbers() {
    let changes: [fn(&mut Move); 4] = [
        |moving| moving.meter = 1,
        |moving| moving.from = 1,
        |moving| moving.target = 1,
        |moving| moving.copied = 1,
    ];
    for change in changes {
        gives(5, at_stage(IDLE), |a| change(&mut a.control.moving));
    }
    gives(5, at_stage(IDLE), |a| a.control.moving.meter = u32::MAX);
}

#[test]
fn r6_unattached_rows_are_as_after_detach() {
    for stage in STAGES.into_iter().chain([IDLE]) {
        gives(6, at_stage(stage), |a| a.table[4].passed = false);
        for hold in 0..4 {
            gives(6, at_stage(stage), |a| a.table[4].holds[hold] = OTHER_CELL);
        }
        gives(6, at_stage(stage), |a| {
            a.table[4].phase = ready(OTHER_CELL, 0, 0)
        });
        gives(0, at_stage(stage), |a| a.table[4].swaps = 4);
        gives(6, at_stage(stage), |a| a.table[0].attached = false);
        gives(0, at_stage(stage), |a| a.table[1].attached = false);
    }
}

#[test]
fn r6_holds_are_empty_or_records() {
    for stage in STAGES.into_iter().chain([IDLE]) {
        for hold in 0..4 {
            for cell in [
                0,
                OLD + 1,
                NEW + 1,
                OTHER_CELL + 1,
                1_023,
                1_024,
                65_534,
                65_536,
            ] {
                gives(6, at_stage(stage), |a| a.table[7].holds[hold] = cell);
                gives(6, at_stage(stage), |a| {
                    client(a, 8, &[]);
                    a.table[7].holds[hold] = cell;
                });
            }
            for cell in [65_536 + OTHER_CELL, u32::MAX] {
                gives(6, at_stage(stage), |a| a.table[1].holds[hold] = cell);
            }
            for cell in [EMPTY, OTHER_CELL] {
                gives(0, at_stage(stage), |a| a.table[1].holds[hold] = cell);
            }
            // The replica is no record before the commit.
            let new = if stage == Stage::Third { 0 } else { 6 };
            gives(new, at_stage(stage), |a| a.table[1].holds[hold] = NEW);
        }
    }
}

#[test]
fn r6_the_old_block_may_be_held_only_by_rows_that_have_not_passed() {
    for hold in 0..4 {
        for stage in BEFORE_COMMIT.into_iter().chain([IDLE]) {
            for passed in [true, false] {
                gives(0, at_stage(stage), |a| {
                    a.table[1].passed = passed;
                    a.table[1].holds[hold] = OLD;
                });
            }
        }
        gives(6, at_stage(Stage::Third), |a| a.table[1].holds[hold] = OLD);
        gives(0, at_stage(Stage::Third), |a| {
            a.table[1].passed = false;
            a.table[1].holds[hold] = OLD;
        });
    }
    // With no move in hand there is no old block, though the move's numbers are 0.
    gives(6, at_stage(IDLE), |a| {
        a.table[1].passed = false;
        a.table[1].holds[0] = 0;
    });
}

#[test]
fn r6_a_busy_rows_hold_is_filled_and_its_word_within_the_payload() {
    for phase in [ready, waiting] {
        for (hold, word, rule) in [
            (0, 13, 0),
            (0, 14, 6),
            (1, 5, 0),
            (1, 6, 6),
            (2, 0, 6),
            (3, 0, 6),
            (4, 0, 6),
            (0, u32::MAX, 6),
            (u32::MAX, 0, 6),
        ] {
            let cell = if hold == 0 { OLD } else { OTHER_CELL };
            gives(rule, at_stage(Stage::Second), |a| {
                a.table[0].phase = phase(cell, hold, word);
            });
        }
        // An empty hold is no cell to be ready at.
        gives(6, at_stage(Stage::Second), |a| {
            a.table[0].phase = phase(EMPTY, 2, 0);
        });
    }
}

#[test]
fn r6_waiting_is_on_the_holds_cell() {
    for (cell, rule) in [(OLD, 0), (NEW, 6), (OTHER_CELL, 6), (OLD + 1, 6), (0, 6)] {
        gives(rule, at_stage(Stage::Second), |a| {
            a.table[0].phase = waiting(cell, 0, 0);
        });
    }
    // In the third barrier too, and not at the header's target.
    for (cell, rule) in [(OLD, 0), (NEW, 6)] {
        gives(rule, at_stage(Stage::Third), |a| {
            a.table[0].passed = false;
            a.table[0].holds[0] = OLD;
            a.table[0].phase = waiting(cell, 0, 0);
        });
    }
}

#[test]
fn r6_ready_is_at_the_holds_cell_or_its_headers_target() {
    for (cell, rule) in [
        (OLD, 0),
        (NEW, 6),
        (OTHER_CELL, 6),
        (OLD + 1, 6),
        (2 * OLD, 6),
    ] {
        gives(rule, at_stage(Stage::Second), |a| {
            a.table[0].phase = ready(cell, 0, 0);
        });
    }
    for (cell, rule) in [(OLD, 0), (NEW, 0), (OTHER_CELL, 6), (NEW + 1, 6)] {
        gives(rule, at_stage(Stage::Third), |a| {
            a.table[0].passed = false;
            a.table[0].holds[0] = OLD;
            a.table[0].phase = ready(cell, 0, 0);
        });
    }
    // A hold of the new block does not lead to the old one.
    gives(6, at_stage(Stage::Third), |a| {
        a.table[0].phase = ready(OLD, 0, 0)
    });
}

#[test]
fn r7_begun_counts_what_ended_and_what_is_in_hand() {
    for stage in STAGES.into_iter().chain([IDLE]) {
        gives(7, at_stage(stage), |a| a.control.begun += 1);
        gives(7, at_stage(stage), |a| a.control.begun -= 1);
        gives(7, at_stage(stage), |a| a.control.committed += 1);
        gives(7, at_stage(stage), |a| a.control.aborted -= 1);
        gives(0, at_stage(stage), |a| {
            a.control.committed += 1;
            a.control.aborted -= 1;
        });
    }
    // Sums do not wrap.
    gives(7, Archive::fresh(), |a| {
        a.control.committed = u32::MAX;
        a.control.aborted = 1;
    });
    gives(7, at_stage(Stage::First), |a| {
        a.control.begun = 0;
        a.control.committed = u32::MAX;
        a.control.aborted = 0;
    });
    gives(0, Archive::fresh(), |a| {
        a.control.begun = u32::MAX;
        a.control.committed = u32::MAX - 7;
        a.control.aborted = 7;
    });
}

/// The state of a stage, with the swaps and the phase of client 1; five moves are begun.
fn with_swaps(rule: u32, stage: Stage, flagged: bool, phase: Phase, swaps: u32) {
    gives(rule, at_stage(stage), |a| {
        if stage.is_before_commit() && !flagged {
            a.arena[at(OLD)] = 2 * OLD;
        }
        a.table[0].phase = phase;
        a.table[0].swaps = swaps;
    });
}

#[test]
fn r8_while_none_is_flagged() {
    for stage in STAGES.into_iter().chain([IDLE]) {
        for phase in [Phase::Resting, ready(OTHER_CELL, 1, 0)] {
            with_swaps(0, stage, false, phase, 5);
            with_swaps(8, stage, false, phase, 6);
            with_swaps(8, stage, false, phase, u32::MAX);
        }
        with_swaps(0, stage, false, waiting(OTHER_CELL, 1, 0), 4);
        with_swaps(8, stage, false, waiting(OTHER_CELL, 1, 0), 5);
        if stage != Stage::Third {
            with_swaps(0, stage, false, waiting(OLD, 0, 0), 4);
            with_swaps(8, stage, false, waiting(OLD, 0, 0), 5);
        }
    }
}

#[test]
fn r8_while_a_header_is_flagged() {
    for stage in BEFORE_COMMIT {
        for phase in [
            Phase::Resting,
            ready(OLD, 0, 0),
            ready(OTHER_CELL, 1, 0),
            waiting(OLD, 0, 0),
        ] {
            with_swaps(0, stage, true, phase, 4);
            with_swaps(8, stage, true, phase, 5);
        }
        with_swaps(0, stage, true, waiting(OTHER_CELL, 1, 0), 3);
        with_swaps(8, stage, true, waiting(OTHER_CELL, 1, 0), 4);
        // No sum wraps.
        with_swaps(8, stage, true, waiting(OTHER_CELL, 1, 0), u32::MAX);
    }
}

#[test]
fn r8_counts_rows_that_are_not_attached() {
    for who in 1..=8 {
        for (stage, most) in [(IDLE, 5), (Stage::Second, 4), (Stage::Third, 5)] {
            gives(0, at_stage(stage), |a| a.table[who - 1].swaps = most);
            gives(8, at_stage(stage), |a| a.table[who - 1].swaps = most + 1);
        }
    }
}

#[test]
fn the_first_broken_rule_is_given() {
    // Each change breaks one rule on its own; with all of them the lowest is given, and then the
    // next once that change is left out.
    let changes: [fn(&mut Archive); 8] = [
        |a| a.control.directory[200] = 1_024,
        |a| a.arena[at(NEW)] = 1,
        |a| a.control.map.take(60, 1),
        |a| a.arena[at(OTHER_CELL)] += 1,
        |a| a.control.moving.copied = 17,
        |a| a.table[4].passed = false,
        |a| a.control.aborted += 1,
        |a| a.table[0].swaps = 5,
    ];
    for (first, change) in changes.iter().enumerate() {
        gives(first as u32 + 1, at_stage(Stage::Second), change);
        gives(first as u32 + 1, at_stage(Stage::Second), |a| {
            changes[first..].iter().for_each(|change| change(a));
        });
    }
}
