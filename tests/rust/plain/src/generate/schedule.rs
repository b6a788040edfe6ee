//! Schedules: steps chosen by looking at the state they meet, so that most are accepted and
//! that moves really begin, copy, commit and get called off.

use super::Random;
use crate::state::{Archive, Header, Phase, Row, Stage, EMPTY, KINDS};
use crate::step::Step;

/// How often each sort of step is wanted, and how full the arena gets.
#[derive(Clone, Copy, Debug)]
pub struct Weights {
    /// READ and WRITE, and the GO that end them.
    pub access: u32,
    /// BEGIN and ADVANCE, and what the clients must do for a barrier.
    pub moves: u32,
    /// REST, wherever the client stands.
    pub rest: u32,
    pub open: u32,
    pub drop: u32,
    pub attach: u32,
    pub detach: u32,
    pub admit: u32,
    pub retire: u32,
    /// Steps that look wrong or are.
    pub stray: u32,
    /// Above so many records ADMIT gives way to RETIRE.
    pub records: u32,
    /// Weights of the four kinds in ADMIT.
    pub kinds: [u32; 4],
}

impl Weights {
    /// Many accesses with moves in between.
    pub const USUAL: Weights = Weights {
        access: 40,
        moves: 30,
        rest: 6,
        open: 8,
        drop: 2,
        attach: 5,
        detach: 1,
        admit: 5,
        retire: 3,
        stray: 5,
        records: 16,
        kinds: [8, 4, 2, 1],
    };

    /// Few small records, so that the clients meet on them and on every move.
    pub const CLOSE: Weights = Weights {
        access: 50,
        moves: 40,
        records: 4,
        kinds: [8, 1, 0, 0],
        ..Weights::USUAL
    };

    /// Long records and few clients.
    pub const LONG: Weights = Weights {
        moves: 60,
        attach: 2,
        detach: 2,
        kinds: [1, 1, 3, 3],
        ..Weights::USUAL
    };

    /// The arena runs full.
    pub const FULL: Weights = Weights {
        admit: 60,
        access: 20,
        retire: 1,
        records: 256,
        kinds: [1, 1, 2, 40],
        ..Weights::USUAL
    };

    /// Every third step or so is a stray one.
    pub const WILD: Weights = Weights {
        stray: 45,
        ..Weights::USUAL
    };

    const MIXES: [Weights; 5] = [
        Weights::USUAL,
        Weights::CLOSE,
        Weights::LONG,
        Weights::FULL,
        Weights::WILD,
    ];
}

impl Weights {
    /// The weights that a seed picks.
    pub fn of_seed(seed: u64) -> &'static Weights {
        &Weights::MIXES[(seed % Weights::MIXES.len() as u64) as usize]
    }
}

/// How the clients treat the record of a move in hand. If all went for it, every move would be
/// called off.
#[derive(Clone, Copy, PartialEq, Eq)]
enum Mood {
    /// They leave it alone, and it commits.
    Shy,
    /// They load its flag only when all have passed the second barrier, and swap after the commit.
    Late,
    /// The same, but one of them swaps at once, and the others wait on after the move is called
    /// off: into the next one.
    Stale,
    /// They go for it.
    Keen,
}

/// A schedule of n steps from a fresh archive; the seed picks the weights too.
pub fn schedule(seed: u64, n: usize) -> Vec<Step> {
    let weights = Weights::of_seed(seed);
    schedule_from(&mut Archive::fresh(), &mut Random::new(seed), weights, n)
}

/// A schedule of n steps from a sound state, which is left as they leave it.
pub fn schedule_from(
    archive: &mut Archive,
    random: &mut Random,
    weights: &Weights,
    n: usize,
) -> Vec<Step> {
    let mut steps = Vec::with_capacity(n);
    while steps.len() < n {
        let step = Chooser {
            archive,
            random,
            weights,
        }
        .choose();
        // What it answers is not asked here: refused steps belong to a schedule too.
        let _ = archive.act(step);
        steps.push(step);
    }
    steps
}

/// The next step of a schedule. A way of choosing gives nothing where the state has no room for
/// it, and then another is tried.
struct Chooser<'a> {
    archive: &'a Archive,
    random: &'a mut Random,
    weights: &'a Weights,
}

impl Chooser<'_> {
    fn choose(&mut self) -> Step {
        let w = self.weights;
        let sorts = [
            w.access, w.moves, w.rest, w.open, w.drop, w.attach, w.detach, w.admit, w.retire,
            w.stray,
        ];
        for _ in 0..20 {
            let chosen = match self.random.weighted(&sorts) {
                0 => self.access(),
                1 => self.moves(),
                2 => self.rest(),
                3 => self.open(),
                4 => self.drop(),
                5 => self.attach(),
                6 => self.detach(),
                7 => self.admit(),
                8 => self.retire(),
                _ => Some(self.stray()),
            };
            if let Some(step) = chosen {
                return self.with_unused_numbers(step);
            }
        }
        self.anything()
    }

    /// "Unused numbers are ignored": now and then they are not 0.
    fn with_unused_numbers(&mut self, mut step: Step) -> Step {
        let used = match (step[0], step[1]) {
            (0, 1) | (_, 12) | (_, 14) => 2,
            (0, 2) | (0, 3) | (_, 13) => 1,
            (0, 4) | (_, 10) | (_, 11) | (_, 16) | (_, 17) => 0,
            _ => 3,
        };
        if self.random.percent(15) {
            for number in &mut step[2 + used..] {
                *number = self.random.word() >> self.random.below(32);
            }
        }
        step
    }

    // What the state has.

    fn clients(&self, which: impl Fn(&Row) -> bool) -> Vec<u32> {
        let rows = self.archive.table.iter().zip(1u32..);
        rows.filter(|(row, _)| which(row))
            .map(|(_, who)| who)
            .collect()
    }

    fn row(&self, who: u32) -> &Row {
        &self.archive.table[who as usize - 1]
    }

    fn present(&self) -> Vec<(u32, u32)> {
        self.archive.control.present().collect()
    }

    fn absent_meter(&mut self) -> Option<u32> {
        let absent = |meter: &u32| self.archive.control.entry(*meter).is_none();
        let meters: Vec<u32> = (0..256).filter(absent).collect();
        // The ends of the range more often than the others.
        match self.random.below(8) {
            0 => meters.first().copied(),
            1 => meters.last().copied(),
            _ => self.random.one_of(&meters),
        }
    }

    fn present_meter(&mut self) -> Option<u32> {
        let present = self.present();
        self.random.one_of(&present).map(|(meter, _)| meter)
    }

    fn is_held(&self, cell: u32) -> bool {
        self.archive
            .table
            .iter()
            .any(|row| row.holds.contains(&cell))
    }

    fn is_moving(&self) -> bool {
        self.archive.control.moving.stage != Stage::Idle
    }

    /// One mood for the whole of a move.
    fn mood(&self) -> Mood {
        match self.archive.control.begun % 5 {
            0 => Mood::Shy,
            1 => Mood::Late,
            2 => Mood::Stale,
            _ => Mood::Keen,
        }
    }

    /// The second barrier with nobody behind: the next ADVANCE commits or calls off.
    fn is_before_compare(&self) -> bool {
        let stage = self.archive.control.moving.stage;
        stage == Stage::Second && self.archive.table.iter().all(|row| row.passed)
    }

    /// Says whether a client that waits rather goes on waiting.
    fn may_wait_on(&self) -> bool {
        match self.mood() {
            Mood::Late | Mood::Stale => self.is_before_compare() || !self.is_moving(),
            Mood::Shy | Mood::Keen => false,
        }
    }

    /// The holds of a client that fit, by the cell they hold.
    fn holds(&self, who: u32, which: impl Fn(u32) -> bool) -> Vec<u32> {
        let holds = self.row(who).holds.iter().zip(0u32..);
        holds
            .filter(|(&held, _)| held != EMPTY && which(held))
            .map(|(_, hold)| hold)
            .collect()
    }

    /// The holds a client turns to now, by the mood of the move in hand.
    fn wanted_holds(&mut self, who: u32) -> Vec<u32> {
        let from = u32::from(self.archive.control.moving.from);
        let on_the_moved = self.holds(who, |held| held == from);
        let not_yet = match self.mood() {
            Mood::Shy => true,
            Mood::Late | Mood::Stale => !self.is_before_compare(),
            Mood::Keen => false,
        };
        let stage = self.archive.control.moving.stage;
        if stage.is_before_commit() && not_yet {
            self.holds(who, |held| held != from)
        } else if self.is_moving() && !on_the_moved.is_empty() && self.random.percent(60) {
            on_the_moved
        } else {
            self.holds(who, |_| true)
        }
    }

    // What a client may do.

    fn access(&mut self) -> Option<Step> {
        let attached = self.clients(|row| row.attached);
        let who = self.random.one_of(&attached)?;
        self.access_by(who)
    }

    /// The next step of a client that reads and writes: GO where it is busy.
    fn access_by(&mut self, who: u32) -> Option<Step> {
        let phase = self.row(who).phase;
        match phase {
            Phase::Waiting { .. } if self.may_wait_on() && self.random.percent(90) => return None,
            Phase::Resting => {}
            _ => return Some([who, 16, 0, 0, 0]),
        }
        let holds = self.wanted_holds(who);
        match self.random.one_of(&holds) {
            None => self.open_by(who),
            Some(hold) => Some(self.load(who, hold)),
        }
    }

    fn load(&mut self, who: u32, hold: u32) -> Step {
        let held = self.row(who).holds[hold as usize];
        let payload = self.archive.kind(held).payload;
        let word = match self.random.below(6) {
            0 => 0,
            1 => payload - 1,
            _ => self.random.below(payload),
        };
        if self.random.percent(50) {
            [who, 14, hold, word, 0]
        } else {
            [who, 15, hold, word, self.value()]
        }
    }

    fn value(&mut self) -> u32 {
        match self.random.below(8) {
            0 => 0,
            1 => u32::MAX,
            2 => self.random.word(),
            _ => self.random.below(1_000),
        }
    }

    fn rest(&mut self) -> Option<Step> {
        let resting = self.clients(|row| row.attached && row.phase == Phase::Resting);
        let who = self.random.one_of(&resting)?;
        Some([who, 17, 0, 0, 0])
    }

    fn open(&mut self) -> Option<Step> {
        let resting = self.clients(|row| row.attached && row.phase == Phase::Resting);
        let who = self.random.one_of(&resting)?;
        self.open_by(who)
    }

    fn open_by(&mut self, who: u32) -> Option<Step> {
        let moved = self.archive.control.moving.meter;
        let meter = if self.is_moving() && self.random.percent(40) {
            moved
        } else {
            self.present_meter()?
        };
        Some([who, 12, meter, self.random.below(4), 0])
    }

    fn drop(&mut self) -> Option<Step> {
        let holding = self.clients(|row| {
            row.attached && row.phase == Phase::Resting && row.holds.iter().any(|&h| h != EMPTY)
        });
        let who = self.random.one_of(&holding)?;
        let holds = self.holds(who, |_| true);
        let hold = self.random.one_of(&holds)?;
        Some([who, 13, hold, 0, 0])
    }

    fn attach(&mut self) -> Option<Step> {
        let unattached = self.clients(|row| !row.attached);
        let who = self.random.one_of(&unattached)?;
        Some([who, 10, 0, 0, 0])
    }

    fn detach(&mut self) -> Option<Step> {
        let resting = self.clients(|row| row.attached && row.phase == Phase::Resting);
        let who = self.random.one_of(&resting)?;
        Some([who, 11, 0, 0, 0])
    }

    // What the keeper may do.

    fn admit(&mut self) -> Option<Step> {
        let kind = self.random.weighted(&self.weights.kinds) as u32;
        let cells = KINDS[kind as usize].cells;
        let no_run = self.archive.control.map.lowest_free_run(cells).is_none();
        let enough = self.present().len() as u32 >= self.weights.records;
        if enough || no_run && self.random.percent(90) {
            return self.retire();
        }
        Some([0, 1, self.absent_meter()?, kind, 0])
    }

    fn retire(&mut self) -> Option<Step> {
        if self.is_moving() {
            return None;
        }
        let mut records = self.present();
        records.retain(|&(_, cell)| !self.is_held(cell));
        let (meter, _) = self.random.one_of(&records)?;
        Some([0, 2, meter, 0, 0])
    }

    fn moves(&mut self) -> Option<Step> {
        match self.archive.control.moving.stage {
            Stage::Idle => self.begin(),
            Stage::Copying => Some([0, 4, 0, 0, 0]),
            _ => self.barrier(),
        }
    }

    /// A record that can be moved, rather one that is held: its move meets clients.
    fn begin(&mut self) -> Option<Step> {
        let mut records = self.present();
        records.retain(|&(_, cell)| {
            let cells = self.archive.kind(cell).cells;
            let run = self.archive.control.map.lowest_free_run(cells);
            run.map_or(false, |target| target < cell)
        });
        let held = records.iter().copied();
        let held: Vec<_> = held.filter(|&(_, cell)| self.is_held(cell)).collect();
        let from = if held.is_empty() || self.random.percent(20) {
            records
        } else {
            held
        };
        match self.random.one_of(&from) {
            Some((meter, _)) => Some([0, 3, meter, 0, 0]),
            None => self.make_hole(),
        }
    }

    /// A hole below the others lets them move: retires a record, or takes a hold off it first.
    fn make_hole(&mut self) -> Option<Step> {
        let mut records = self.present();
        records.sort_by_key(|&(_, cell)| cell);
        // The highest record leaves no hole below another.
        records.pop();
        let holders = |cell: u32| -> usize {
            let holds = self.archive.table.iter().flat_map(|row| row.holds);
            holds.filter(|&held| held == cell).count()
        };
        let &(meter, cell) = records.iter().min_by_key(|&&(_, cell)| holders(cell))?;
        let holding = self.clients(|row| row.holds.contains(&cell));
        let who = match self.random.one_of(&holding) {
            None => return Some([0, 2, meter, 0, 0]),
            Some(who) => who,
        };
        let hold = self.row(who).holds.iter().position(|&held| held == cell)?;
        match self.row(who).phase {
            Phase::Resting => Some([who, 13, hold as u32, 0, 0]),
            _ => Some([who, 16, 0, 0, 0]),
        }
    }

    /// Lets those pass who have not, mostly; then advances, mostly after some client has loaded
    /// the flag once more: that is how swaps are lost, and waits outlast a move.
    fn barrier(&mut self) -> Option<Step> {
        let behind = self.clients(|row| !row.passed);
        if let Some(who) = self.random.one_of(&behind) {
            if self.random.percent(90) {
                return Some(match self.row(who).phase {
                    Phase::Resting => [who, 17, 0, 0, 0],
                    _ => [who, 16, 0, 0, 0],
                });
            }
        } else if self.is_before_compare() && self.random.percent(75) {
            if let Some(step) = self.meet_the_flag() {
                return Some(step);
            }
        }
        Some([0, 4, 0, 0, 0])
    }

    /// A client's step just before the compare.
    fn meet_the_flag(&mut self) -> Option<Step> {
        let moving = self.archive.control.moving;
        let from = u32::from(moving.from);
        let is_flagged = Header::unpack(self.archive.header(from)).flag;
        let waiting =
            self.clients(|row| matches!(row.phase, Phase::Waiting { cell, .. } if cell == from));
        if self.mood() == Mood::Stale && !is_flagged {
            return None;
        }
        if self.mood() == Mood::Stale && waiting.len() >= 2 {
            let who = self.random.one_of(&waiting)?;
            return Some([who, 16, 0, 0, 0]);
        }
        let resting = self.clients(|row| row.attached && row.phase == Phase::Resting);
        let who = self.random.one_of(&resting)?;
        let holds = self.holds(who, |held| held == from);
        match self.random.one_of(&holds) {
            Some(hold) if self.mood() != Mood::Shy => Some(self.load(who, hold)),
            None if self.mood() == Mood::Stale => Some([who, 12, moving.meter, 0, 0]),
            _ => self.access_by(who),
        }
    }

    // What is refused, mostly.

    fn stray(&mut self) -> Step {
        for _ in 0..4 {
            if let Some(step) = self.stray_in_this_state() {
                return step;
            }
        }
        self.anything()
    }

    fn stray_in_this_state(&mut self) -> Option<Step> {
        let who = 1 + self.random.below(8);
        let hold = self.random.below(4);
        let v = self.value();
        match self.random.below(24) {
            // 3 and 4.
            0 => Some([9 + self.random.below(3), 10, 0, 0, 0]),
            1 => Some([u32::MAX, 4, 0, 0, 0]),
            2 => Some([0, self.off(&[0, 5, 10, 16, u32::MAX]), 0, 0, 0]),
            3 => Some([who, self.off(&[0, 1, 9, 18, 4, u32::MAX]), 0, 0, 0]),
            // 5, in every number that can give it.
            4 => Some([0, 1, self.off(&[256, 65_535, u32::MAX]), 0, 0]),
            5 => Some([0, 1, self.random.below(256), self.off(&[4, u32::MAX]), 0]),
            6 => Some([0, 2 + self.random.below(2), self.off(&[256, 511]), 0, 0]),
            7 => Some([who, 12, self.off(&[256, u32::MAX]), hold, 0]),
            8 => Some([who, 12, self.random.below(256), self.off(&[4, 65_536]), 0]),
            9 => Some([who, 13 + self.random.below(3), self.off(&[4, 255]), 0, v]),
            // 6: a client that is not there.
            10 => {
                let unattached = self.clients(|row| !row.attached);
                let who = self.random.one_of(&unattached)?;
                Some([who, 11 + self.random.below(7), hold, 0, v])
            }
            // 7.
            11 => {
                let attached = self.clients(|row| row.attached);
                Some([self.random.one_of(&attached)?, 10, 0, 0, 0])
            }
            12 => Some([0, 1, self.present_meter()?, self.random.below(4), 0]),
            // 8, or 9 with GO.
            13 => {
                let busy = self.clients(|row| row.phase != Phase::Resting);
                let who = self.random.one_of(&busy)?;
                Some([who, 11 + self.random.below(7), hold, self.off(&[0, 99]), v])
            }
            14 => Some([0, 2 + self.random.below(2), self.present_meter()?, 0, 0]),
            15 => {
                let resting = self.clients(|row| row.attached && row.phase == Phase::Resting);
                Some([self.random.one_of(&resting)?, 16, hold, 0, v])
            }
            16 => Some([0, 4, 0, 0, 0]),
            // 10: what is absent or empty.
            17 => {
                let code = 2 + self.random.below(2);
                Some([0, code, self.absent_meter()?, 0, 0])
            }
            18 => Some([who, 12, self.absent_meter()?, hold, 0]),
            19 => {
                let room = |row: &Row| row.attached && row.holds.contains(&EMPTY);
                let with_room = self.clients(room);
                let who = self.random.one_of(&with_room)?;
                let empty = self.row(who).holds.iter().position(|&h| h == EMPTY)?;
                let code = 13 + self.random.below(3);
                Some([who, code, empty as u32, self.off(&[0, 62]), v])
            }
            // 11: a held record.
            20 => {
                let mut records = self.present();
                records.retain(|&(_, cell)| self.is_held(cell));
                let (meter, _) = self.random.one_of(&records)?;
                Some([0, 2, meter, 0, 0])
            }
            // 13: the lowest record has nothing below it.
            21 => {
                let records = self.present();
                let (meter, _) = records.iter().min_by_key(|&&(_, cell)| cell)?;
                Some([0, 3, *meter, 0, 0])
            }
            // 14: just past the payload of this kind or of another.
            22 => {
                let holding = self.clients(|row| row.holds.iter().any(|&h| h != EMPTY));
                let who = self.random.one_of(&holding)?;
                let holds = self.holds(who, |_| true);
                let hold = self.random.one_of(&holds)?;
                let kind = KINDS[self.random.below(4) as usize];
                let code = 14 + self.random.below(2);
                Some([who, code, hold, kind.payload, v])
            }
            _ => None,
        }
    }

    fn off(&mut self, numbers: &[u32]) -> u32 {
        self.random.one_of(numbers).unwrap_or(0)
    }

    /// Five numbers without a look at the state.
    fn anything(&mut self) -> Step {
        let who = self.random.below(10);
        let code = self.random.below(19);
        let a = self.random.below(4) << self.random.below(9);
        let b = self.random.below(64) >> self.random.below(6);
        [who, code, a, b, self.value()]
    }
}
