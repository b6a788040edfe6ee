//! The exported form: "the archive and table lie in lent bytes of one fixed size", 33,820
//! bytes, all numbers lowest byte first. "A wrong size gets 1." A refused call writes no byte.
//!
//! | bytes | what |
//! |---|---|
//! | 0 .. 511 | directory: 256 × 2 bytes |
//! | 512 .. 639 | map: 16 × 8 bytes |
//! | 640 .. 655 | the move: stage 4 bytes, meter 4, from 2, target 2, words copied 4 |
//! | 656 .. 667 | begun, committed, aborted: 4 bytes each |
//! | 668 .. 33,435 | arena: 8,192 × 4 bytes |
//! | 33,436 .. 33,819 | table: 8 rows × 48 bytes, twelve words each |
//!
//! The stages are numbered in their order: 0 no move, 1 first barrier, 2 copying, 3 second
//! barrier, 4 third barrier. A row's words: 0 attached, 1 passed, 2 to 5 the holds, 6 swaps,
//! 7 phase (0 resting, 2 ready to read, 3 ready to write, 4 waiting to read, 5 waiting to
//! write), 8 cell, 9 hold, 10 word, 11 value.

use crate::answer::{packed, Answer, Outcome, Refusal};
use crate::map::Map;
use crate::state::{
    Access, Archive, Control, Move, Phase, Row, Stage, ARENA_WORDS, HOLDS, METERS, ROWS,
};
use crate::step::Step;

pub const DIRECTORY: usize = 0;
pub const MAP: usize = 512;
pub const MOVE: usize = 640;
pub const COUNTS: usize = 656;
pub const ARENA: usize = 668;
pub const TABLE: usize = 33_436;
pub const SIZE: usize = 33_820;

pub const ROW_WORDS: usize = 12;
pub const ROW_BYTES: usize = 4 * ROW_WORDS;
pub const STEP_BYTES: usize = 20;
pub const ANSWER_BYTES: usize = 8;

/// Takes numbers from the front of lent bytes; the caller has seen to their count.
struct Reader<'a>(&'a [u8]);

impl Reader<'_> {
    fn take<const N: usize>(&mut self) -> [u8; N] {
        let (front, rest) = self.0.split_at(N);
        self.0 = rest;
        front.try_into().expect("split at N")
    }

    fn u16(&mut self) -> u16 {
        u16::from_le_bytes(self.take())
    }

    fn u32(&mut self) -> u32 {
        u32::from_le_bytes(self.take())
    }

    fn u64(&mut self) -> u64 {
        u64::from_le_bytes(self.take())
    }
}

/// Puts numbers at the front of lent bytes.
struct Writer<'a>(&'a mut [u8]);

impl Writer<'_> {
    fn put<const N: usize>(&mut self, bytes: [u8; N]) {
        let (front, rest) = std::mem::take(&mut self.0).split_at_mut(N);
        front.copy_from_slice(&bytes);
        self.0 = rest;
    }

    fn u16(&mut self, number: u16) {
        self.put(number.to_le_bytes());
    }

    fn u32(&mut self, number: u32) {
        self.put(number.to_le_bytes());
    }

    fn u64(&mut self, number: u64) {
        self.put(number.to_le_bytes());
    }
}

/// The archive that a buffer means, or nothing when its size is wrong.
pub fn decode(buf: &[u8]) -> Option<Archive> {
    if buf.len() != SIZE {
        return None;
    }
    let mut archive = Archive::fresh();
    let mut reader = Reader(buf);
    archive.control = decode_control(&mut reader);
    for word in &mut archive.arena {
        *word = reader.u32();
    }
    for row in &mut archive.table {
        let mut words = [0; ROW_WORDS];
        for word in &mut words {
            *word = reader.u32();
        }
        *row = decode_row(words);
    }
    Some(archive)
}

fn decode_control(reader: &mut Reader) -> Control {
    let mut control = Control::FRESH;
    for entry in &mut control.directory {
        *entry = reader.u16();
    }
    for word in &mut control.map.0 {
        *word = reader.u64();
    }
    control.moving = Move {
        stage: Stage::of_number(reader.u32()),
        meter: reader.u32(),
        from: reader.u16(),
        target: reader.u16(),
        copied: reader.u32(),
    };
    control.begun = reader.u32();
    control.committed = reader.u32();
    control.aborted = reader.u32();
    control
}

/// "Row bytes that mean no row ... break R6": they become a row that breaks it, so that the
/// rules before R6 come first. No client is unattached and not passed.
const NO_ROW: Row = Row {
    passed: false,
    ..Row::FRESH
};

fn decode_row(words: [u32; ROW_WORDS]) -> Row {
    row_of_words(words).unwrap_or(NO_ROW)
}

/// The row that twelve words mean. One row has one encoding: words that it does not use are 0.
pub fn row_of_words(words: [u32; ROW_WORDS]) -> Option<Row> {
    let [attached, passed, h0, h1, h2, h3, swaps, phase, cell, hold, word, value] = words;
    let read = Access::Read { hold, word };
    let write = Access::Write { hold, word, value };
    let phase = match phase {
        0 if [cell, hold, word, value] == [0; 4] => Phase::Resting,
        2 if value == 0 => Phase::Ready { cell, access: read },
        3 => Phase::Ready {
            cell,
            access: write,
        },
        4 if value == 0 => Phase::Waiting { cell, access: read },
        5 => Phase::Waiting {
            cell,
            access: write,
        },
        _ => return None,
    };
    Some(Row {
        attached: truth(attached)?,
        passed: truth(passed)?,
        holds: [h0, h1, h2, h3],
        swaps,
        phase,
    })
}

fn truth(word: u32) -> Option<bool> {
    match word {
        0 => Some(false),
        1 => Some(true),
        _ => None,
    }
}

/// The twelve words of a row.
pub fn words_of_row(row: &Row) -> [u32; ROW_WORDS] {
    let [h0, h1, h2, h3] = row.holds;
    let (phase, cell, access) = match row.phase {
        Phase::Resting => (0, 0, Access::Read { hold: 0, word: 0 }),
        Phase::Ready { cell, access } => (2, cell, access),
        Phase::Waiting { cell, access } => (4, cell, access),
    };
    let (phase, value) = match access {
        Access::Read { .. } => (phase, 0),
        Access::Write { value, .. } => (phase + 1, value),
    };
    [
        u32::from(row.attached),
        u32::from(row.passed),
        h0,
        h1,
        h2,
        h3,
        row.swaps,
        phase,
        cell,
        access.hold(),
        access.word(),
        value,
    ]
}

/// Writes an archive into a buffer of the right size.
pub fn encode(archive: &Archive, buf: &mut [u8]) {
    assert_eq!(buf.len(), SIZE);
    let mut writer = Writer(buf);
    encode_control(&archive.control, &mut writer);
    for &word in &archive.arena {
        writer.u32(word);
    }
    for row in &archive.table {
        for word in words_of_row(row) {
            writer.u32(word);
        }
    }
}

fn encode_control(control: &Control, writer: &mut Writer) {
    for &entry in &control.directory {
        writer.u16(entry);
    }
    for &word in &control.map.0 {
        writer.u64(word);
    }
    let moving = control.moving;
    writer.u32(moving.stage as u32);
    writer.u32(moving.meter);
    writer.u16(moving.from);
    writer.u16(moving.target);
    writer.u32(moving.copied);
    writer.u32(control.begun);
    writer.u32(control.committed);
    writer.u32(control.aborted);
}

/// The bytes of an archive.
pub fn buffer(archive: &Archive) -> Vec<u8> {
    let mut buf = vec![0; SIZE];
    encode(archive, &mut buf);
    buf
}

/// Decodes, does a call that may change the archive, and writes it back unless refused.
fn change(buf: &mut [u8], call: impl FnOnce(&mut Archive) -> Outcome) -> u64 {
    let outcome = match decode(buf) {
        None => Err(Refusal::Size),
        Some(mut archive) => {
            let outcome = call(&mut archive);
            if outcome.is_ok() {
                encode(&archive, buf);
            }
            outcome
        }
    };
    packed(outcome)
}

/// "Of refusals fresh ... can give only 1": whatever the bytes were.
pub fn fresh_bytes(buf: &mut [u8]) -> u64 {
    change(buf, |archive| {
        *archive = Archive::fresh();
        Ok(Answer::Done(0))
    })
}

pub fn step_bytes(buf: &mut [u8], step: Step) -> u64 {
    change(buf, |archive| archive.step(step))
}

/// Steps are 20 bytes each, answers 8 bytes each.
pub fn run_bytes(buf: &mut [u8], steps: &[u8], answers: &mut [u8]) -> u64 {
    change(buf, |archive| {
        let numbers = words(steps).ok_or(Refusal::Size)?;
        let mut slots = words(answers).ok_or(Refusal::Size)?;
        let answer = archive.run(&numbers, &mut slots)?;
        let mut writer = Writer(answers);
        for slot in slots {
            writer.u32(slot);
        }
        Ok(answer)
    })
}

fn words(bytes: &[u8]) -> Option<Vec<u32>> {
    if bytes.len() % 4 != 0 {
        return None;
    }
    let mut reader = Reader(bytes);
    Some((0..bytes.len() / 4).map(|_| reader.u32()).collect())
}

pub fn fill_bytes(buf: &[u8]) -> u64 {
    packed(decode(buf).map_or(Err(Refusal::Size), |archive| archive.fill()))
}

pub fn audit_bytes(buf: &[u8]) -> u64 {
    packed(decode(buf).map_or(Err(Refusal::Size), |archive| archive.audit()))
}

// The sizes of the table above, said once more by the compiler.
const _: () = assert!(MAP == DIRECTORY + 2 * METERS);
const _: () = assert!(MOVE == MAP + 8 * Map::EMPTY.0.len());
const _: () = assert!(COUNTS == MOVE + 16 && ARENA == COUNTS + 12);
const _: () = assert!(TABLE == ARENA + 4 * ARENA_WORDS);
const _: () = assert!(SIZE == TABLE + ROWS * ROW_BYTES && ROW_WORDS == 8 + HOLDS);
