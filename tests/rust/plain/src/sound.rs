//! A sound state: the rules R1 to R8. A rule is asked only where all before it hold, and
//! may lean on them: after R1 and R2 every cell that the directory or the move names lies
//! within the arena.

use crate::map::Map;
use crate::state::{label_meter, Access, Archive, Header, Move, Phase, Row, Stage, CELLS, EMPTY};

impl Archive {
    /// "0 or the number of the first broken rule"
    pub fn first_broken_rule(&self) -> u32 {
        if !self.r1_entries() {
            1
        } else if !self.r2_move() {
            2
        } else if !self.r3_map() {
            3
        } else if !self.r4_headers() {
            4
        } else if !self.r5_copied() {
            5
        } else if !self.r6_rows() {
            6
        } else if !self.r7_counts() {
            7
        } else if !self.r8_swaps() {
            8
        } else {
            0
        }
    }

    /// "R1 Each present entry c: label matches its meter, kind read from it, record within
    /// 1,024 cells."
    fn r1_entries(&self) -> bool {
        self.control.present().all(|(meter, cell)| {
            cell < CELLS && label_meter(self.label(cell)) == meter && self.is_within(cell, cell)
        })
    }

    /// Says whether a block at a cell, as long as the record at another, lies within the arena.
    fn is_within(&self, cell: u32, record: u32) -> bool {
        cell + self.kind(record).cells <= CELLS
    }

    /// "R2 A move in its first three stages names a present meter whose entry is the old cell,
    /// and a target block of its length within the arena; in the third barrier the entry is the
    /// target, and the old block has the same label and lies within the arena. Replica words 0
    /// and 1 are right once copied." And "a stage that is none" breaks it.
    fn r2_move(&self) -> bool {
        let Move {
            stage,
            meter,
            from,
            target,
            copied,
        } = self.control.moving;
        let (from, target) = (u32::from(from), u32::from(target));
        match stage {
            Stage::Idle => true,
            Stage::Unknown => false,
            Stage::First | Stage::Copying | Stage::Second => {
                self.control.entry(meter) == Some(from)
                    && self.is_within(target, from)
                    && (copied < 1 || self.header(target) == Header::plain(target))
                    && (copied < 2 || self.label(target) == self.label(from))
            }
            Stage::Third => {
                self.control.entry(meter) == Some(target)
                    && self.is_within(from, target)
                    && self.label(from) == self.label(target)
            }
        }
    }

    /// "R3 Used cells are exactly those of present records and of the move's other block; none
    /// lies in two."
    fn r3_map(&self) -> bool {
        let mut covered = Map::EMPTY;
        let records = self
            .control
            .present()
            .map(|(_, cell)| (cell, self.kind(cell).cells));
        for (cell, cells) in records.chain(self.other_block()) {
            if covered.meets(cell, cells) {
                return false;
            }
            covered.take(cell, cells);
        }
        covered == self.control.map
    }

    /// "the move's other block": the one that the directory does not name, with its length. The
    /// old block's label gives the length at every stage; the replica's may not be copied yet.
    fn other_block(&self) -> Option<(u32, u32)> {
        let moving = self.control.moving;
        let (from, target) = (u32::from(moving.from), u32::from(moving.target));
        match moving.stage {
            Stage::First | Stage::Copying | Stage::Second => Some((target, self.kind(from).cells)),
            Stage::Third => Some((from, self.kind(from).cells)),
            Stage::Idle | Stage::Unknown => None,
        }
    }

    /// "R4 Headers of present records are 2c; in the first three stages the moved one may be
    /// 2c + 1. In the third barrier the old header is 2 × new."
    fn r4_headers(&self) -> bool {
        let moving = self.control.moving;
        let records = self.control.present().all(|(meter, cell)| {
            let header = self.header(cell);
            let may_be_flagged = moving.stage.is_before_commit() && meter == moving.meter;
            header == Header::plain(cell) || may_be_flagged && header == Header::flagged(cell)
        });
        let old = moving.stage != Stage::Third
            || self.header(u32::from(moving.from)) == Header::plain(u32::from(moving.target));
        records && old
    }

    /// "R5 Words copied is below the record's words while copying; at the other stages, and with
    /// no move in hand, the move's numbers are as said above": "all 0 when there is none, and
    /// words copied is 0 at the first barrier and the record's length from the second barrier on".
    fn r5_copied(&self) -> bool {
        let moving = self.control.moving;
        let words = || self.kind(u32::from(moving.from)).words;
        match moving.stage {
            Stage::Idle => moving == Move::NONE,
            Stage::First => moving.copied == 0,
            Stage::Copying => moving.copied < words(),
            Stage::Second | Stage::Third => moving.copied == words(),
            Stage::Unknown => false,
        }
    }

    /// "R6 Unattached rows are as after DETACH. A hold is empty, a present record, or the old
    /// block. A busy row's hold is filled, ... In the third barrier a passed row holds no old
    /// block."
    fn r6_rows(&self) -> bool {
        // Before the commit the old block is the present record itself.
        let old = match self.control.moving {
            Move {
                stage: Stage::Third,
                from,
                ..
            } => Some(u32::from(from)),
            _ => None,
        };
        self.table.iter().all(|row| {
            if !row.attached {
                return is_as_after_detach(row);
            }
            let may_hold_old = !row.passed;
            row.holds.iter().all(|&held| {
                held == EMPTY || self.is_present(held) || may_hold_old && Some(held) == old
            }) && self.phase_fits(row)
        })
    }

    /// Says whether a record of the directory starts at a cell. R1 holds, so that its label
    /// names the one meter whose entry it can be.
    fn is_present(&self, cell: u32) -> bool {
        cell < CELLS && self.control.entry(label_meter(self.label(cell))) == Some(cell)
    }

    /// "waiting is on its hold's cell; ready is at its hold's cell or that header's target"
    fn phase_fits(&self, row: &Row) -> bool {
        match row.phase {
            Phase::Resting => true,
            Phase::Waiting { cell, access } => self.held(row, access) == Some(cell),
            Phase::Ready { cell, access } => self.held(row, access).map_or(false, |held| {
                cell == held || cell == Header::unpack(self.header(held)).target
            }),
        }
    }

    /// "A busy row's hold is filled, its word within the payload": the held cell then.
    fn held(&self, row: &Row, access: Access) -> Option<u32> {
        let held = *row.holds.get(access.hold() as usize)?;
        let fits = held != EMPTY && access.word() < self.kind(held).payload;
        fits.then_some(held)
    }

    /// "R7 begun = committed + aborted, plus 1 during the first three stages."
    fn r7_counts(&self) -> bool {
        let control = &self.control;
        let in_hand = u64::from(control.moving.stage.is_before_commit());
        u64::from(control.begun)
            == u64::from(control.committed) + u64::from(control.aborted) + in_hand
    }

    /// "R8 Swaps ≤ begun. While a header is flagged, swaps < begun, and a row waiting on another
    /// record has swaps + 1 < begun. While none is flagged, a waiting row has swaps < begun."
    fn r8_swaps(&self) -> bool {
        let begun = u64::from(self.control.begun);
        let flagged = self.flagged_cell();
        self.table.iter().all(|row| {
            let swaps = u64::from(row.swaps);
            let waiting_on = match row.phase {
                Phase::Waiting { cell, .. } => Some(cell),
                _ => None,
            };
            match (flagged, waiting_on) {
                (Some(flagged), Some(cell)) if cell != flagged => swaps + 1 < begun,
                (Some(_), _) | (None, Some(_)) => swaps < begun,
                (None, None) => swaps <= begun,
            }
        })
    }

    /// The record whose header is flagged: R4 allows the moved one alone, before the commit.
    fn flagged_cell(&self) -> Option<u32> {
        let moving = self.control.moving;
        let from = u32::from(moving.from);
        let flagged = moving.stage.is_before_commit() && Header::unpack(self.header(from)).flag;
        flagged.then_some(from)
    }
}

/// "Unattached rows are as after DETACH": passed, holds empty, and at rest, since a client not
/// resting cannot detach; "swaps stay".
fn is_as_after_detach(row: &Row) -> bool {
    let swaps = row.swaps;
    *row == Row {
        swaps,
        ..Row::FRESH
    }
}
