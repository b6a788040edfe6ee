//! The steps. Each one asks its refusals in rising order, so that the first that
//! applies is the lowest, and changes nothing before the last of them.

use crate::answer::{numbers, Answer, Outcome, Refusal};
use crate::state::{
    at, label, label_kind, Access, Archive, Header, Move, Phase, Row, Stage, ABSENT, EMPTY, HOLDS,
};

/// "A step is five numbers: who, code, a, b, v."
pub type Step = [u32; 5];

/// "A run of up to 4,096 steps"
pub const RUN_STEPS: usize = 4_096;

const LAST_METER: u32 = 255;
const LAST_KIND: u32 = 3;
const LAST_HOLD: u32 = 3;

impl Archive {
    /// One step, with the soundness test before it.
    pub fn step(&mut self, step: Step) -> Outcome {
        if self.first_broken_rule() != 0 {
            return Err(Refusal::Unsound);
        }
        self.act(step)
    }

    /// "A run ... checks soundness once and equals the steps one by one. 1 or 2 refuses the
    /// whole run and writes no answers; a refused step inside it only fills its own slot."
    pub fn run(&mut self, steps: &[u32], answers: &mut [u32]) -> Outcome {
        let count = steps.len() / 5;
        if steps.len() % 5 != 0 || count > RUN_STEPS || answers.len() != 2 * count {
            return Err(Refusal::Size);
        }
        if self.first_broken_rule() != 0 {
            return Err(Refusal::Unsound);
        }
        for (step, slot) in steps.chunks_exact(5).zip(answers.chunks_exact_mut(2)) {
            let outcome = self.act([step[0], step[1], step[2], step[3], step[4]]);
            let (number, value) = numbers(outcome);
            slot[0] = number;
            slot[1] = value;
        }
        Ok(Answer::Done(0))
    }

    /// "Fill is the number of used cells, by counting the map's ones."
    pub fn fill(&self) -> Outcome {
        if self.first_broken_rule() != 0 {
            return Err(Refusal::Unsound);
        }
        Ok(Answer::Done(self.control.map.used()))
    }

    /// "Audit's value, beside answer 30, is 0 or the number of the first broken rule."
    pub fn audit(&self) -> Outcome {
        Ok(Answer::Done(self.first_broken_rule()))
    }

    /// One step on a state that is known to be sound. "Who 0 is the keeper, 1 to 8 the
    /// clients. Unused numbers are ignored."
    pub fn act(&mut self, [who, code, a, b, v]: Step) -> Outcome {
        match (who, code) {
            (0, 1) => self.admit(a, b),
            (0, 2) => self.retire(a),
            (0, 3) => self.begin(a),
            (0, 4) => self.advance(),
            (1..=8, 10) => self.attach(who),
            (1..=8, 11) => self.detach(who),
            (1..=8, 12) => self.open(who, a, b),
            (1..=8, 13) => self.drop_hold(who, a),
            (1..=8, 14) => self.load(who, Access::Read { hold: a, word: b }),
            (1..=8, 15) => {
                let (hold, word, value) = (a, b, v);
                self.load(who, Access::Write { hold, word, value })
            }
            (1..=8, 16) => self.go(who),
            (1..=8, 17) => self.rest(who),
            (0..=8, _) => Err(Refusal::Code),
            (9..=u32::MAX, _) => Err(Refusal::Who),
        }
    }

    /// "1 ADMIT a = meter, b = kind. Takes the lowest run of free cells long enough.
    /// Header 2c, label set, payload zero. Answer 20, value c."
    fn admit(&mut self, meter: u32, kind: u32) -> Outcome {
        if meter > LAST_METER || kind > LAST_KIND {
            return Err(Refusal::Range);
        }
        if self.control.entry(meter).is_some() {
            return Err(Refusal::Already);
        }
        let label = label(meter, kind);
        let sizes = label_kind(label);
        let cell = self
            .control
            .map
            .lowest_free_run(sizes.cells)
            .ok_or(Refusal::NoRun)?;
        self.control.map.take(cell, sizes.cells);
        self.control.directory[meter as usize] = cell as u16;
        let record = &mut self.arena[at(cell)..at(cell + sizes.cells)];
        record.fill(0);
        record[0] = Header::plain(cell);
        record[1] = label;
        Ok(Answer::Admitted(cell))
    }

    /// "2 RETIRE a = meter. Directory entry absent, cells free. Answer 30."
    fn retire(&mut self, meter: u32) -> Outcome {
        if meter > LAST_METER {
            return Err(Refusal::Range);
        }
        if self.control.moving.stage != Stage::Idle {
            return Err(Refusal::Busy);
        }
        let cell = self.control.entry(meter).ok_or(Refusal::Absent)?;
        if self.table.iter().any(|row| row.holds.contains(&cell)) {
            return Err(Refusal::Held);
        }
        self.control.directory[meter as usize] = ABSENT;
        self.control.map.free(cell, self.kind(cell).cells);
        Ok(Answer::Done(0))
    }

    /// "3 BEGIN a = meter. The target is the lowest free run of the record's length. Its cells
    /// become used, the flag is set, begun rises by one, passed marks are cleared, the stage is
    /// first barrier. Answer 21, value target."
    fn begin(&mut self, meter: u32) -> Outcome {
        if meter > LAST_METER {
            return Err(Refusal::Range);
        }
        if self.control.moving.stage != Stage::Idle {
            return Err(Refusal::Busy);
        }
        let from = self.control.entry(meter).ok_or(Refusal::Absent)?;
        let cells = self.kind(from).cells;
        let target = self
            .control
            .map
            .lowest_free_run(cells)
            .filter(|&target| target < from)
            .ok_or(Refusal::NoRunBelow)?;
        if self.control.begun == u32::MAX {
            return Err(Refusal::BegunAtEnd);
        }
        self.control.map.take(target, cells);
        self.arena[at(from)] = Header::flagged(from);
        self.control.begun += 1;
        self.control.moving = Move {
            stage: Stage::First,
            meter,
            from: from as u16,
            target: target as u16,
            copied: 0,
        };
        self.clear_marks();
        Ok(Answer::Begun(target))
    }

    /// "4 ADVANCE, by stage", and "if any row has not passed, answer 22, nothing changes".
    fn advance(&mut self) -> Outcome {
        match self.control.moving.stage {
            // A state with a stage that is none is not sound, so `act` never meets it.
            Stage::Idle | Stage::Unknown => Err(Refusal::Idle),
            Stage::Copying => Ok(self.copy_word()),
            _ if !self.all_passed() => Ok(Answer::NotYet),
            Stage::First => {
                self.control.moving.stage = Stage::Copying;
                Ok(Answer::Copying)
            }
            Stage::Second => Ok(self.compare()),
            Stage::Third => Ok(self.release()),
        }
    }

    /// "copying: writes one word of the replica, in order from 0: word 0 is 2 × target, every
    /// other word is copied. Answer 24, value words done. After the last word marks are cleared
    /// and the stage is second barrier."
    fn copy_word(&mut self) -> Answer {
        let Move {
            from,
            target,
            copied,
            ..
        } = self.control.moving;
        let (from, target) = (u32::from(from), u32::from(target));
        let word = copied as usize;
        self.arena[at(target) + word] = if word == 0 {
            Header::plain(target)
        } else {
            self.arena[at(from) + word]
        };
        let done = copied + 1;
        self.control.moving.copied = done;
        if done == self.kind(from).words {
            self.clear_marks();
            self.control.moving.stage = Stage::Second;
        }
        Answer::Copied(done)
    }

    /// "Else compare the header with 2 × from + 1. Equal: header becomes 2 × target, directory
    /// entry the target, committed rises, marks are cleared, stage third barrier, answer 25,
    /// value target. Not equal: the replica's cells are freed, aborted rises, no move in hand,
    /// answer 26."
    fn compare(&mut self) -> Answer {
        let Move {
            meter,
            from,
            target,
            ..
        } = self.control.moving;
        let (from, target) = (u32::from(from), u32::from(target));
        if self.header(from) == Header::flagged(from) {
            self.arena[at(from)] = Header::plain(target);
            self.control.directory[meter as usize] = target as u16;
            self.control.committed += 1;
            self.clear_marks();
            self.control.moving.stage = Stage::Third;
            Answer::Committed(target)
        } else {
            self.control.map.free(target, self.kind(from).cells);
            self.control.aborted += 1;
            self.control.moving = Move::NONE;
            Answer::Aborted
        }
    }

    /// "Else the old block's cells are freed, no move in hand, answer 27."
    fn release(&mut self) -> Answer {
        let from = u32::from(self.control.moving.from);
        self.control.map.free(from, self.kind(from).cells);
        self.control.moving = Move::NONE;
        Answer::Released
    }

    /// "Clearing marks sets attached rows to not passed and unattached rows to passed."
    fn clear_marks(&mut self) {
        for row in &mut self.table {
            row.passed = !row.attached;
        }
    }

    fn all_passed(&self) -> bool {
        self.table.iter().all(|row| row.passed)
    }

    /// "10 ATTACH: attached, passed, holds empty."
    fn attach(&mut self, who: u32) -> Outcome {
        let row = &mut self.table[who as usize - 1];
        if row.attached {
            return Err(Refusal::Already);
        }
        row.attached = true;
        row.passed = true;
        row.holds = [EMPTY; HOLDS];
        Ok(Answer::Done(0))
    }

    /// "11 DETACH: unattached, passed, holds empty; swaps stay."
    fn detach(&mut self, who: u32) -> Outcome {
        let row = at_rest(&mut self.table[who as usize - 1])?;
        row.attached = false;
        row.passed = true;
        row.holds = [EMPTY; HOLDS];
        Ok(Answer::Done(0))
    }

    /// "12 OPEN a = meter, b = hold: the hold gets the directory's cell, even over an old hold."
    fn open(&mut self, who: u32, meter: u32, hold: u32) -> Outcome {
        if meter > LAST_METER || hold > LAST_HOLD {
            return Err(Refusal::Range);
        }
        let row = at_rest(&mut self.table[who as usize - 1])?;
        row.holds[hold as usize] = self.control.entry(meter).ok_or(Refusal::Absent)?;
        Ok(Answer::Done(0))
    }

    /// "13 DROP a = hold: empties it."
    fn drop_hold(&mut self, who: u32, hold: u32) -> Outcome {
        if hold > LAST_HOLD {
            return Err(Refusal::Range);
        }
        let row = at_rest(&mut self.table[who as usize - 1])?;
        let held = &mut row.holds[hold as usize];
        if *held == EMPTY {
            return Err(Refusal::Absent);
        }
        *held = EMPTY;
        Ok(Answer::Done(0))
    }

    /// "14 READ a = hold, b = word; 15 WRITE a = hold, b = word, v = value. Loads the held
    /// record's header. Flag 0: ready at its target, answer 31 with the target. Flag 1: waiting,
    /// answer 32 with the record's cell."
    fn load(&mut self, who: u32, access: Access) -> Outcome {
        if access.hold() > LAST_HOLD {
            return Err(Refusal::Range);
        }
        let row = at_rest(&mut self.table[who as usize - 1])?;
        let cell = row.holds[access.hold() as usize];
        if cell == EMPTY {
            return Err(Refusal::Absent);
        }
        if access.word() >= label_kind(self.arena[at(cell) + 1]).payload {
            return Err(Refusal::Word);
        }
        let header = Header::unpack(self.arena[at(cell)]);
        if header.flag {
            row.phase = Phase::Waiting { cell, access };
            Ok(Answer::Waiting(cell))
        } else {
            let cell = header.target;
            row.phase = Phase::Ready { cell, access };
            Ok(Answer::Ready(cell))
        }
    }

    /// "16 GO. Waiting: one swap. ... Ready: the access is done, the row rests"
    fn go(&mut self, who: u32) -> Outcome {
        let row = &mut self.table[who as usize - 1];
        if !row.attached {
            return Err(Refusal::NotAttached);
        }
        match row.phase {
            Phase::Resting => Err(Refusal::Idle),
            Phase::Waiting { cell, access } => {
                let (cell, won) = swap(&mut self.arena[at(cell)], cell);
                row.phase = Phase::Ready { cell, access };
                // "Swaps rises by one in both."
                row.swaps += 1;
                Ok(Answer::Swapped(won))
            }
            Phase::Ready { cell, access } => {
                row.phase = Phase::Resting;
                // "The payload follows, numbered from 0."
                let word = &mut self.arena[at(cell) + 2 + access.word() as usize];
                Ok(perform(word, access))
            }
        }
    }

    /// "17 REST. Each hold becomes its header's target, then passed is set; an empty hold stays
    /// empty. Answer 30."
    fn rest(&mut self, who: u32) -> Outcome {
        let row = at_rest(&mut self.table[who as usize - 1])?;
        for held in &mut row.holds {
            if *held != EMPTY {
                *held = Header::unpack(self.arena[at(*held)]).target;
            }
        }
        row.passed = true;
        Ok(Answer::Done(0))
    }
}

/// "If the header is 2 × cell + 1 it becomes 2 × cell, ready at cell, answer 33 value 1.
/// Otherwise ready at the header's target, answer 33 value 0." Gives where the row is ready.
fn swap(header: &mut u32, cell: u32) -> (u32, bool) {
    if *header == Header::flagged(cell) {
        *header = Header::plain(cell);
        (cell, true)
    } else {
        (Header::unpack(*header).target, false)
    }
}

/// "the access is done ...; answer 34 with the value read, or 35"
fn perform(word: &mut u32, access: Access) -> Answer {
    match access {
        Access::Read { .. } => Answer::Read(*word),
        Access::Write { value, .. } => {
            *word = value;
            Answer::Written
        }
    }
}

/// The row of a client that is attached and rests, or 6, or 8.
fn at_rest(row: &mut Row) -> Result<&mut Row, Refusal> {
    if !row.attached {
        return Err(Refusal::NotAttached);
    }
    if row.phase != Phase::Resting {
        return Err(Refusal::Busy);
    }
    Ok(row)
}
