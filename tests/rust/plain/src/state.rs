//! Arena, records, parties: the state, and the fresh one.

use crate::map::Map;

/// "The arena is 8,192 words of 32 bits: 1,024 cells of 8 words"
pub const ARENA_WORDS: usize = 8_192;
pub const CELLS: u32 = 1_024;
pub const CELL_WORDS: u32 = 8;
/// "a directory of 256 meters"
pub const METERS: usize = 256;
/// "The client table is lent as eight rows, one for each client."
pub const ROWS: usize = 8;
/// "four holds"
pub const HOLDS: usize = 4;
/// "each absent (65535) or a start cell"
pub const ABSENT: u16 = 65_535;
/// "each empty (65535) or a cell"
pub const EMPTY: u32 = 65_535;

/// A row of the table of record kinds.
#[derive(Clone, Copy, Debug, PartialEq, Eq)]
pub struct Kind {
    pub cells: u32,
    pub words: u32,
    pub payload: u32,
}

const fn kind(cells: u32, words: u32, payload: u32) -> Kind {
    Kind {
        cells,
        words,
        payload,
    }
}

/// "Four record kinds, by a fixed table"
pub const KINDS: [Kind; 4] = [
    kind(1, 8, 6),
    kind(2, 16, 14),
    kind(4, 32, 30),
    kind(8, 64, 62),
];

/// "Word 0 of a record is its header, 2 × target cell + flag: the lowest bit
/// says that the record is being copied."
#[derive(Clone, Copy, Debug, PartialEq, Eq)]
pub struct Header {
    pub target: u32,
    pub flag: bool,
}

impl Header {
    pub fn unpack(word: u32) -> Header {
        Header {
            target: word >> 1,
            flag: word & 1 == 1,
        }
    }

    pub fn pack(self) -> u32 {
        self.target << 1 | u32::from(self.flag)
    }

    pub fn plain(target: u32) -> u32 {
        Header {
            target,
            flag: false,
        }
        .pack()
    }

    pub fn flagged(target: u32) -> u32 {
        Header { target, flag: true }.pack()
    }
}

/// "Word 1 is the label, 4 × meter + kind."
pub fn label(meter: u32, kind: u32) -> u32 {
    4 * meter + kind
}

/// The meter a label names; above 255 it is no meter's label.
pub fn label_meter(label: u32) -> u32 {
    label >> 2
}

/// The sizes of the kind a label names: any two low bits are a kind.
pub fn label_kind(label: u32) -> Kind {
    KINDS[(label & 3) as usize]
}

/// The stages of a move, by number, and the stage that is none.
#[derive(Clone, Copy, Debug, PartialEq, Eq)]
pub enum Stage {
    /// No move in hand.
    Idle,
    First,
    Copying,
    Second,
    Third,
    /// A number that is no stage: only lent bytes can bring it, and it breaks R2.
    Unknown,
}

impl Stage {
    pub fn of_number(number: u32) -> Stage {
        match number {
            0 => Stage::Idle,
            1 => Stage::First,
            2 => Stage::Copying,
            3 => Stage::Second,
            4 => Stage::Third,
            _ => Stage::Unknown,
        }
    }

    /// "its first three stages"
    pub fn is_before_commit(self) -> bool {
        matches!(self, Stage::First | Stage::Copying | Stage::Second)
    }
}

/// "the move in hand (stage, meter, old cell called from, target cell, words copied;
/// all 0 when there is none ...)"
#[derive(Clone, Copy, Debug, PartialEq, Eq)]
pub struct Move {
    pub stage: Stage,
    pub meter: u32,
    pub from: u16,
    pub target: u16,
    pub copied: u32,
}

impl Move {
    pub const NONE: Move = Move {
        stage: Stage::Idle,
        meter: 0,
        from: 0,
        target: 0,
        copied: 0,
    };
}

/// "a directory of 256 meters ...; a map with one bit per cell ...; the move in hand ...;
/// the counts begun, committed, aborted (32 bits)"
#[derive(Clone, Debug, PartialEq, Eq)]
pub struct Control {
    pub directory: [u16; METERS],
    pub map: Map,
    pub moving: Move,
    pub begun: u32,
    pub committed: u32,
    pub aborted: u32,
}

impl Control {
    /// "A fresh directory has all 256 meters absent."
    pub const FRESH: Control = Control {
        directory: [ABSENT; METERS],
        map: Map::EMPTY,
        moving: Move::NONE,
        begun: 0,
        committed: 0,
        aborted: 0,
    };

    /// The start cell of a meter that is present.
    pub fn entry(&self, meter: u32) -> Option<u32> {
        match self.directory.get(meter as usize) {
            None | Some(&ABSENT) => None,
            Some(&cell) => Some(u32::from(cell)),
        }
    }

    /// The present meters, each with its start cell.
    pub fn present(&self) -> impl Iterator<Item = (u32, u32)> + '_ {
        self.directory
            .iter()
            .zip(0u32..)
            .filter(|(&cell, _)| cell != ABSENT)
            .map(|(&cell, meter)| (meter, u32::from(cell)))
    }
}

/// "the access (read or write, hold, word, value), value 0 for a read":
/// a read has no value here, so that it can have no other.
#[derive(Clone, Copy, Debug, PartialEq, Eq)]
pub enum Access {
    Read { hold: u32, word: u32 },
    Write { hold: u32, word: u32, value: u32 },
}

impl Access {
    pub fn hold(self) -> u32 {
        match self {
            Access::Read { hold, .. } | Access::Write { hold, .. } => hold,
        }
    }

    pub fn word(self) -> u32 {
        match self {
            Access::Read { word, .. } | Access::Write { word, .. } => word,
        }
    }
}

/// "its phase: resting, ready at a cell, or waiting to swap on a record"
#[derive(Clone, Copy, Debug, PartialEq, Eq)]
pub enum Phase {
    Resting,
    Ready { cell: u32, access: Access },
    Waiting { cell: u32, access: Access },
}

/// "attached or not; passed or not; four holds, each empty (65535) or a cell;
/// swaps made (32 bits); and its phase"
#[derive(Clone, Copy, Debug, PartialEq, Eq)]
pub struct Row {
    pub attached: bool,
    pub passed: bool,
    pub holds: [u32; HOLDS],
    pub swaps: u32,
    pub phase: Phase,
}

impl Row {
    /// "unattached rows: passed, resting, holds empty, swaps 0"
    pub const FRESH: Row = Row {
        attached: false,
        passed: true,
        holds: [EMPTY; HOLDS],
        swaps: 0,
        phase: Phase::Resting,
    };
}

/// The whole state: control record, arena and client table.
#[derive(Clone, Debug, PartialEq, Eq)]
pub struct Archive {
    pub control: Control,
    pub arena: [u32; ARENA_WORDS],
    pub table: [Row; ROWS],
}

impl Archive {
    /// "Fresh zeroes the arena, empties the directory, map and counts, and leaves eight
    /// unattached rows: passed, resting, holds empty, swaps 0."
    pub fn fresh() -> Archive {
        Archive {
            control: Control::FRESH,
            arena: [0; ARENA_WORDS],
            table: [Row::FRESH; ROWS],
        }
    }

    /// The header of the record that starts at a cell.
    pub fn header(&self, cell: u32) -> u32 {
        self.arena[at(cell)]
    }

    /// The label of the record that starts at a cell.
    pub fn label(&self, cell: u32) -> u32 {
        self.arena[at(cell) + 1]
    }

    /// The sizes of the record that starts at a cell.
    pub fn kind(&self, cell: u32) -> Kind {
        label_kind(self.label(cell))
    }
}

/// "cell c starts at word 8c"
pub fn at(cell: u32) -> usize {
    (CELL_WORDS * cell) as usize
}
