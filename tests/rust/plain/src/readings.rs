//! Where the specification's words could be read in two ways: an input that tells the readings
//! apart, what the reading taken here gives, and what the other one would give.

use crate::bytes::buffer;
use crate::state::{at, label, Access, Archive, Header, Move, Phase, Stage, EMPTY};
use crate::step::Step;

#[derive(Clone, Copy, Debug, PartialEq, Eq)]
pub enum Call {
    Audit,
    Step(Step),
}

pub struct Reading {
    /// The reading taken.
    pub name: &'static str,
    pub before: Vec<u8>,
    pub call: Call,
    /// Answer × 2^32 + value.
    pub result: u64,
    pub after: Vec<u8>,
    /// What the other reading would answer. Where that is the same, the bytes would differ.
    pub other: u64,
}

/// A text for replay, and what it prints.
pub struct TextReading {
    pub name: &'static str,
    pub input: String,
    pub output: String,
}

const ADVANCE: Step = [0, 4, 0, 0, 0];
const REST: Step = [1, 17, 0, 0, 0];

/// The state that accepted steps lead to.
fn after(steps: &[Step]) -> Archive {
    let mut archive = Archive::fresh();
    for &step in steps {
        archive.step(step).expect("an accepted step");
    }
    archive
}

/// Meter 2 of kind 1 at cells 2 and 3, cells 0 and 1 free; meter 3 of kind 0 at cell 4. Client 1
/// holds meter 2 in hold 0 and meter 3 in hold 1.
const START: [Step; 7] = [
    [0, 1, 1, 1, 0],
    [0, 1, 2, 1, 0],
    [0, 1, 3, 0, 0],
    [0, 2, 1, 0, 0],
    [1, 10, 0, 0, 0],
    [1, 12, 2, 0, 0],
    [1, 12, 3, 1, 0],
];

/// The move of meter 2 from cell 2 to cell 0, at the beginning of a stage.
fn at_stage(stage: Stage) -> Archive {
    let mut archive = after(&START);
    let mut steps = vec![[0, 3, 2, 0, 0], REST, ADVANCE];
    steps.extend([ADVANCE; 16]);
    steps.extend([REST, ADVANCE]);
    for step in steps {
        if archive.control.moving.stage == stage {
            break;
        }
        archive.step(step).expect("an accepted step");
    }
    assert_eq!(archive.control.moving.stage, stage);
    archive
}

fn pair((number, value): (u64, u64)) -> u64 {
    number << 32 | value
}

fn audit(name: &'static str, rule: u64, other: u64, archive: Archive) -> Reading {
    let before = buffer(&archive);
    Reading {
        name,
        after: before.clone(),
        before,
        call: Call::Audit,
        result: pair((30, rule)),
        other: pair((30, other)),
    }
}

fn step(
    name: &'static str,
    archive: Archive,
    step: Step,
    (answer, other): ((u64, u64), (u64, u64)),
    change: impl FnOnce(&mut Archive),
) -> Reading {
    let before = buffer(&archive);
    let mut archive = archive;
    change(&mut archive);
    Reading {
        name,
        before,
        call: Call::Step(step),
        result: pair(answer),
        after: buffer(&archive),
        other: pair(other),
    }
}

fn with(mut archive: Archive, change: impl FnOnce(&mut Archive)) -> Archive {
    change(&mut archive);
    archive
}

/// Readings of the rules of a sound state.
pub fn of_the_rules() -> Vec<Reading> {
    let read = Access::Read { hold: 1, word: 0 };
    vec![
        audit(
            "the stages are numbered in their order: copying is 2",
            0,
            2,
            at_stage(Stage::Copying),
        ),
        audit(
            "R1: entries from 1,024 to 65,534 are present",
            1,
            0,
            with(Archive::fresh(), |a| a.control.directory[9] = 1_024),
        ),
        audit(
            "R1: two meters with one record break R1, not R3",
            1,
            3,
            with(after(&START), |a| a.control.directory[9] = 4),
        ),
        audit(
            "R2: in the third barrier too the meter is present, even where target is 65535",
            2,
            0,
            with(at_stage(Stage::Third), |a| {
                a.control.directory[2] = 65_535;
                a.control.moving.target = 65_535;
                a.control.map.free(0, 2);
                a.arena[at(2)] = Header::plain(65_535);
            }),
        ),
        audit(
            "R2: replica word 0 goes by words copied, at the first barrier too",
            2,
            5,
            with(at_stage(Stage::First), |a| {
                a.control.moving.copied = 1;
                a.arena[0] = 99;
            }),
        ),
        audit(
            "R2: at the second barrier with nothing copied the replica is not looked at",
            5,
            2,
            with(at_stage(Stage::Second), |a| {
                a.control.moving.copied = 0;
                a.arena[0] = 99;
            }),
        ),
        audit(
            "R2: the old block's label is the same with its kind",
            2,
            3,
            with(at_stage(Stage::Third), |a| a.arena[at(2) + 1] = label(2, 0)),
        ),
        audit(
            "R2 asks nothing of where the target lies: it may be above the record",
            0,
            2,
            with(at_stage(Stage::First), |a| {
                a.control.map.free(0, 2);
                a.control.map.take(100, 2);
                a.control.moving.target = 100;
            }),
        ),
        audit(
            "R3: no move has no other block, whatever its numbers",
            3,
            5,
            with(after(&START), |a| {
                a.control.moving.target = 60;
                a.control.map.take(60, 1);
            }),
        ),
        audit(
            "R5: a meter, from or target without a move is a matter of R5, not of R2",
            5,
            2,
            with(after(&START), |a| a.control.moving.meter = 300),
        ),
        audit(
            "R5: while copying, words copied may be 0",
            0,
            5,
            with(at_stage(Stage::Copying), |a| a.control.moving.copied = 0),
        ),
        audit(
            "R6: with no move in hand there is no old block, though from is 0",
            6,
            0,
            with(after(&START), |a| a.table[0].holds[3] = 0),
        ),
        audit(
            "R6: before the commit the replica is no record to hold",
            6,
            0,
            with(at_stage(Stage::Second), |a| a.table[0].holds[3] = 0),
        ),
        audit(
            "R6: a hold is a record's first cell",
            6,
            0,
            with(after(&START), |a| a.table[0].holds[3] = 3),
        ),
        audit(
            "R6: holds have 32 bits, and 65536 + cell is not the cell",
            6,
            0,
            with(after(&START), |a| a.table[0].holds[3] = 65_536 + 4),
        ),
        audit(
            "R6: the old block may be held in the third barrier by a row that has not passed, \
             and ready there",
            0,
            6,
            with(at_stage(Stage::Third), |a| {
                let access = Access::Read { hold: 0, word: 13 };
                a.table[0].phase = Phase::Ready { cell: 2, access };
            }),
        ),
        audit(
            "R7 is about natural numbers",
            7,
            0,
            with(Archive::fresh(), |a| {
                a.control.committed = u32::MAX;
                a.control.aborted = 1;
            }),
        ),
        audit(
            "R8: the swaps of rows that are not attached count",
            8,
            0,
            with(Archive::fresh(), |a| a.table[2].swaps = 1),
        ),
        audit(
            "R8: while a header is flagged every row has swaps < begun, resting and unattached too",
            8,
            0,
            with(at_stage(Stage::First), |a| a.table[2].swaps = 1),
        ),
        audit(
            "R8: while a header is flagged, a row that waits on the flagged record may have \
             swaps + 1 = begun",
            0,
            8,
            with(at_stage(Stage::First), |a| {
                let access = Access::Read { hold: 0, word: 0 };
                a.table[0].phase = Phase::Waiting { cell: 2, access };
            }),
        ),
        audit(
            "R8: the same on another record breaks it",
            8,
            0,
            with(at_stage(Stage::First), |a| {
                let access = read;
                a.table[0].phase = Phase::Waiting { cell: 4, access };
            }),
        ),
        audit(
            "R8: a row that is ready does not wait",
            0,
            8,
            with(at_stage(Stage::Third), |a| {
                a.table[0].swaps = 1;
                let access = read;
                a.table[0].phase = Phase::Ready { cell: 4, access };
            }),
        ),
    ]
}

/// Readings of the steps.
pub fn of_the_steps() -> Vec<Reading> {
    let waiting = || {
        let mut archive = at_stage(Stage::Copying);
        archive.step([1, 14, 0, 0, 0]).expect("a read");
        archive
    };
    let at_end = |mut archive: Archive| {
        archive.control.begun = u32::MAX;
        archive.control.aborted = u32::MAX;
        archive
    };
    vec![
        step(
            "BEGIN: a run that is longer than the record is a run of its length",
            // Cells 0 and 1 are free, and cell 4 alone; meter 7 is at cell 13.
            with(after(&START), |a| {
                a.step([0, 1, 4, 3, 0]).expect("meter 4 at cell 5");
                a.step([0, 1, 5, 0, 0]).expect("meter 5 at cell 0");
                a.step([0, 1, 6, 0, 0]).expect("meter 6 at cell 1");
                a.step([0, 1, 7, 0, 0]).expect("meter 7 at cell 13");
                for step in [
                    [1, 13, 1, 0, 0],
                    [0, 2, 3, 0, 0],
                    [0, 2, 5, 0, 0],
                    [0, 2, 6, 0, 0],
                ] {
                    a.step(step).expect("cells 0, 1 and 4 free");
                }
            }),
            [0, 3, 7, 0, 0],
            ((21, 0), (21, 4)),
            |a| {
                a.control.map.take(0, 1);
                a.arena[at(13)] = Header::flagged(13);
                a.control.begun = 1;
                a.table[0].passed = false;
                a.control.moving = Move {
                    stage: Stage::First,
                    meter: 7,
                    from: 13,
                    target: 0,
                    copied: 0,
                };
            },
        ),
        step(
            "ADMIT: runs start at any cell",
            after(&[[0, 1, 0, 0, 0]]),
            [0, 1, 1, 3, 0],
            ((20, 1), (20, 8)),
            |a| {
                a.control.directory[1] = 1;
                a.control.map.take(1, 8);
                a.arena[8] = 2;
                a.arena[9] = label(1, 3);
            },
        ),
        step(
            "RETIRE leaves the words of the cells it frees",
            with(after(&START), |a| {
                a.step([1, 13, 1, 0, 0]).expect("meter 3 dropped");
            }),
            [0, 2, 3, 0, 0],
            ((30, 0), (30, 0)),
            |a| {
                a.control.directory[3] = 65_535;
                a.control.map.free(4, 1);
            },
        ),
        step(
            "BEGIN writes no word of the replica",
            with(after(&START), |a| a.arena[..16].fill(7)),
            [0, 3, 2, 0, 0],
            ((21, 0), (21, 0)),
            |a| {
                a.control.map.take(0, 2);
                a.arena[at(2)] = Header::flagged(2);
                a.control.begun = 1;
                a.table[0].passed = false;
                a.control.moving = Move {
                    stage: Stage::First,
                    meter: 2,
                    from: 2,
                    target: 0,
                    copied: 0,
                };
            },
        ),
        step(
            "ATTACH leaves swaps",
            with(after(&[]), |a| {
                a.control.begun = 1;
                a.control.aborted = 1;
                a.table[0].swaps = 1;
            }),
            [1, 10, 0, 0, 0],
            ((30, 0), (30, 0)),
            |a| a.table[0].attached = true,
        ),
        step(
            "ATTACH in a move has passed",
            at_stage(Stage::Second),
            [2, 10, 0, 0, 0],
            ((30, 0), (30, 0)),
            |a| a.table[1].attached = true,
        ),
        step(
            "ADVANCE while copying asks nobody to pass",
            with(at_stage(Stage::Copying), |a| a.table[0].passed = false),
            ADVANCE,
            ((24, 1), (22, 0)),
            |a| {
                a.control.moving.copied = 1;
                a.arena[0] = 0;
            },
        ),
        step(
            "OPEN in the third barrier takes the new block",
            at_stage(Stage::Third),
            [1, 12, 2, 3, 0],
            ((30, 0), (30, 0)),
            |a| a.table[0].holds[3] = 0,
        ),
        step(
            "a READ keeps no value, whatever v is",
            after(&START),
            [1, 14, 1, 0, 9],
            ((31, 4), (31, 4)),
            |a| {
                let access = Access::Read { hold: 1, word: 0 };
                a.table[0].phase = Phase::Ready { cell: 4, access };
            },
        ),
        step(
            "the lowest number: hold 4 of a client not attached is 5",
            after(&START),
            [2, 14, 4, 0, 0],
            ((5, 0), (6, 0)),
            |_| {},
        ),
        step(
            "the lowest number: READ when busy of an empty hold and word 99 is 8",
            waiting(),
            [1, 14, 3, 99, 0],
            ((8, 0), (10, 0)),
            |_| {},
        ),
        step(
            "the lowest number: BEGIN of an absent meter during a move is 8",
            waiting(),
            [0, 3, 200, 0, 0],
            ((8, 0), (10, 0)),
            |_| {},
        ),
        step(
            "the lowest number: an empty hold and word 99 is 10",
            after(&START),
            [1, 14, 3, 99, 0],
            ((10, 0), (14, 0)),
            |_| {},
        ),
        step(
            "the lowest number: no run below and begun at its end is 13",
            at_end(after(&[[0, 1, 1, 0, 0]])),
            [0, 3, 1, 0, 0],
            ((13, 0), (15, 0)),
            |_| {},
        ),
        step(
            "a word far too high is no matter of 5",
            after(&START),
            [1, 15, 1, u32::MAX, 0],
            ((14, 0), (5, 0)),
            |_| {},
        ),
        step(
            "numbers that a step does not use may be anything",
            after(&START),
            [1, 13, 1, 256, 256],
            ((30, 0), (5, 0)),
            |a| a.table[0].holds[1] = EMPTY,
        ),
        step(
            "ADMIT during a move does not take the replica's cells",
            at_stage(Stage::First),
            [0, 1, 9, 0, 0],
            ((20, 5), (20, 0)),
            |a| {
                a.control.directory[9] = 5;
                a.control.map.take(5, 1);
                a.arena[at(5)] = 10;
                a.arena[at(5) + 1] = label(9, 0);
            },
        ),
    ]
}

/// Readings of the form of replay's input.
pub fn of_the_texts() -> Vec<TextReading> {
    let text = |name, input: &str, output: &str| TextReading {
        name,
        input: input.to_string(),
        output: output.to_string(),
    };
    let nothing = "0\n0\n5\n0\n0\n0\n0\n0\n";
    vec![
        // Another reading: bad file 1: a section has a line.
        text("no admissions and no steps are a file", "0\n0\n", nothing),
        // Another reading: it is read.
        text(
            "a last line without LF is wrong itself",
            "0\n0",
            "bad file 2\n",
        ),
        // Another reading: it is skipped.
        text(
            "an empty line at the end is extra",
            "0\n0\n\n",
            "bad file 3\n",
        ),
        // Another reading: bad file 2: the line before them is not the last.
        text(
            "bytes without LF at the end are an extra line",
            "0\n0\nx",
            "bad file 3\n",
        ),
        // Another reading: bad file 1.
        text(
            "a missing line is the one after the last",
            "1\n",
            "bad file 2\n",
        ),
        // Another reading: bad file 4.
        text(
            "the first bad line is named",
            "2\n1 0\nx\nx\n",
            "bad file 3\n",
        ),
        // Another reading: bad file 1, the count.
        text(
            "a count too high makes the next section's count a wrong line",
            "2\n1 0\n0\n",
            "bad file 3\n",
        ),
        // Another reading: bad file 2, the count.
        text(
            "a count may be 4294967295, and then a line is missing",
            "0\n4294967295\n0 4 0 0 0\n",
            "bad file 4\n",
        ),
        // Another reading: it is read.
        text("a count has no needless zero", "00\n0\n", "bad file 1\n"),
        // Another reading: bad file 2.
        text(
            "numbers out of a step's range are no matter of the form",
            "1\n256 4\n1\n9 99 0 0 4294967295\n",
            "1\n5 0\n1\n3 0\n5\n0\n0\n0\n0\n0\n",
        ),
        // Another reading: 1 for the whole.
        TextReading {
            name: "more steps than a run may have are run",
            input: format!("0\n4097\n{}", "9 0 0 0 0\n".repeat(4_097)),
            output: format!("0\n4097\n{}5\n0\n0\n0\n0\n0\n", "3 0\n".repeat(4_097)),
        },
        // Another reading: bad file 1.
        TextReading {
            name: "too long comes before what is bad",
            input: "x".repeat(65_537),
            output: "too long\n".to_string(),
        },
    ]
}
