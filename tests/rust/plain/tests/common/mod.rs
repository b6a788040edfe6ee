//! What the tests share: the printed run, and states put together by hand.
#![allow(dead_code)]

use plain::state::{at, label, EMPTY, KINDS};
use plain::{numbers, Access, Archive, Header, Move, Phase, Row, Stage, Step};

pub const ADVANCE: Step = [0, 4, 0, 0, 0];

/// The printed run: its two admissions and ten steps, each with its answer and value.
pub const PRINTED: [(Step, (u32, u32)); 12] = [
    ([0, 1, 1, 0, 0], (20, 0)),
    ([0, 1, 2, 0, 0], (20, 1)),
    ([0, 2, 1, 0, 0], (30, 0)),
    ([1, 10, 0, 0, 0], (30, 0)),
    ([1, 12, 2, 0, 0], (30, 0)),
    ([0, 3, 2, 0, 0], (21, 0)),
    (ADVANCE, (22, 0)),
    ([1, 17, 0, 0, 0], (30, 0)),
    (ADVANCE, (23, 0)),
    ([1, 15, 0, 5, 77], (32, 1)),
    ([1, 16, 0, 0, 0], (33, 1)),
    ([1, 16, 0, 0, 0], (35, 0)),
];

/// Takes steps one by one, each with the answer it must get; all states on the way are sound.
pub fn take(archive: &mut Archive, steps: &[(Step, (u32, u32))]) {
    for (i, &(step, answer)) in steps.iter().enumerate() {
        assert_eq!(
            numbers(archive.step(step)),
            answer,
            "step {} is {step:?}",
            i + 1
        );
        assert_eq!(archive.first_broken_rule(), 0, "after step {}", i + 1);
    }
}

pub fn after(steps: &[(Step, (u32, u32))]) -> Archive {
    let mut archive = Archive::fresh();
    take(&mut archive, steps);
    archive
}

/// The end of the printed run.
pub fn printed() -> Archive {
    after(&PRINTED)
}

/// A step that must be accepted, from a copy of the state.
#[track_caller]
pub fn accepted(archive: &Archive, step: Step, answer: (u32, u32)) {
    let mut copy = archive.clone();
    assert_eq!(numbers(copy.step(step)), answer, "{step:?}");
    assert_eq!(copy.first_broken_rule(), 0, "{step:?}");
}

/// A step that must be refused by a number, with value 0 and nothing changed.
#[track_caller]
pub fn refused(archive: &Archive, step: Step, number: u32) {
    let mut copy = archive.clone();
    assert_eq!(numbers(copy.step(step)), (number, 0), "{step:?}");
    assert!(
        copy == *archive,
        "{step:?} was refused and changed the state"
    );
}

/// A present record, put at a cell.
pub fn put(archive: &mut Archive, meter: u32, kind: u32, cell: u32) {
    archive.control.directory[meter as usize] = cell as u16;
    archive.control.map.take(cell, KINDS[kind as usize].cells);
    archive.arena[at(cell)] = Header::plain(cell);
    archive.arena[at(cell) + 1] = label(meter, kind);
}

/// Records over all cells from one up to another, with meters from the first free one on.
pub fn cover(archive: &mut Archive, from: u32, to: u32) {
    let mut cell = from;
    while cell < to {
        let meter = (0..256).find(|&meter| archive.control.entry(meter).is_none());
        let kind = (0..4).rev().find(|kind| cell + (1 << kind) <= to);
        put(archive, meter.unwrap(), kind.unwrap(), cell);
        cell += 1 << kind.unwrap();
    }
}

/// A client that is attached, has passed, and holds cells from hold 0 on.
pub fn client(archive: &mut Archive, who: usize, holds: &[u32]) {
    let row = &mut archive.table[who - 1];
    *row = Row {
        attached: true,
        ..Row::FRESH
    };
    row.holds[..holds.len()].copy_from_slice(holds);
}

pub fn ready(cell: u32, hold: u32, word: u32) -> Phase {
    let access = Access::Read { hold, word };
    Phase::Ready { cell, access }
}

pub fn waiting(cell: u32, hold: u32, word: u32) -> Phase {
    let access = Access::Read { hold, word };
    Phase::Waiting { cell, access }
}

/// Where the state of `at_stage` has its records.
pub const MOVED: u32 = 7;
pub const OTHER: u32 = 9;
pub const OLD: u32 = 20;
pub const NEW: u32 = 10;
pub const OTHER_CELL: u32 = 40;

/// A sound state at a stage: the moved record has kind 1 (2 cells, 16 words, 14 payload words),
/// another record kind 0; five moves begun, two committed before this one. Client 1 holds both,
/// client 2 nothing.
pub fn at_stage(stage: Stage) -> Archive {
    let mut archive = Archive::fresh();
    put(&mut archive, OTHER, 0, OTHER_CELL);
    archive.control.begun = 5;
    archive.control.committed = 2;
    archive.control.aborted = 2;
    let copied = match stage {
        Stage::Copying => 2,
        Stage::Second | Stage::Third => 16,
        _ => 0,
    };
    let entry = if stage == Stage::Third { NEW } else { OLD };
    put(&mut archive, MOVED, 1, entry);
    client(&mut archive, 1, &[entry, OTHER_CELL]);
    client(&mut archive, 2, &[]);
    if stage == Stage::Idle {
        archive.control.aborted += 1;
        return archive;
    }
    archive.control.map.take(OLD, 2);
    archive.control.map.take(NEW, 2);
    archive.control.moving = Move {
        stage,
        meter: MOVED,
        from: OLD as u16,
        target: NEW as u16,
        copied,
    };
    for cell in [OLD, NEW] {
        archive.arena[at(cell) + 1] = label(MOVED, 1);
    }
    archive.arena[at(NEW)] = Header::plain(NEW);
    if stage == Stage::Third {
        archive.arena[at(OLD)] = Header::plain(NEW);
        archive.control.committed += 1;
    } else {
        archive.arena[at(OLD)] = Header::flagged(OLD);
    }
    archive
}

pub const STAGES: [Stage; 4] = [Stage::First, Stage::Copying, Stage::Second, Stage::Third];
pub const NO_HOLDS: [u32; 4] = [EMPTY; 4];
