//! Damage: one field of a sound buffer changed, so that each rule is met from both sides.

use super::{schedule_from, Random, Weights};
use crate::bytes::{
    buffer, decode, ARENA, COUNTS, DIRECTORY, MAP, MOVE, ROW_BYTES, ROW_WORDS, TABLE,
};
use crate::state::{at, Archive, Stage, ARENA_WORDS, CELLS, METERS, ROWS};

/// A number in the buffer: what it is, where it starts, and how many bytes it has.
#[derive(Clone, Debug, PartialEq, Eq)]
pub struct Field {
    pub group: &'static str,
    pub name: String,
    pub at: usize,
    pub width: usize,
}

impl Field {
    fn new(group: &'static str, name: String, at: usize, width: usize) -> Field {
        Field {
            group,
            name,
            at,
            width,
        }
    }

    /// What it is, whatever its client, meter or place.
    pub fn kind(&self) -> String {
        match self.group {
            "move" | "counts" => self.name.clone(),
            "attached row" | "unattached row" => {
                let name = self.name.splitn(3, ' ').nth(2).unwrap_or(&self.name);
                format!("{}: {name}", self.group)
            }
            group => group.to_string(),
        }
    }

    pub fn read(&self, buf: &[u8]) -> u64 {
        let bytes = buf[self.at..self.at + self.width].iter().rev();
        bytes.fold(0, |number, &byte| number << 8 | u64::from(byte))
    }

    pub fn write(&self, buf: &mut [u8], number: u64) {
        let bytes = number.to_le_bytes();
        buf[self.at..self.at + self.width].copy_from_slice(&bytes[..self.width]);
    }

    fn truncate(&self, number: u64) -> u64 {
        match self.width {
            8 => number,
            width => number & ((1 << (8 * width)) - 1),
        }
    }
}

const ROW_NAMES: [&str; ROW_WORDS] = [
    "attached", "passed", "hold 0", "hold 1", "hold 2", "hold 3", "swaps", "phase", "cell", "hold",
    "word", "value",
];

/// Every field of a buffer of the right size, and of the arena's words those of the records and
/// of the move's two blocks, by what they are.
pub fn fields(buf: &[u8]) -> Vec<Field> {
    let archive = decode(buf).expect("a buffer of the right size");
    let mut fields = Vec::new();
    control_fields(&archive, &mut fields);
    for (meter, cell) in archive.control.present() {
        record_fields("record", meter, cell, &archive, &mut fields);
    }
    let moving = archive.control.moving;
    match moving.stage {
        Stage::Idle | Stage::Unknown => {}
        Stage::Third => record_fields(
            "old block",
            moving.meter,
            moving.from.into(),
            &archive,
            &mut fields,
        ),
        _ => record_fields(
            "replica",
            moving.meter,
            moving.target.into(),
            &archive,
            &mut fields,
        ),
    }
    for row in 0..ROWS {
        let group = if archive.table[row].attached {
            "attached row"
        } else {
            "unattached row"
        };
        for (word, name) in ROW_NAMES.iter().enumerate() {
            let at = TABLE + row * ROW_BYTES + 4 * word;
            fields.push(Field::new(
                group,
                format!("client {} {name}", row + 1),
                at,
                4,
            ));
        }
    }
    fields
}

fn control_fields(archive: &Archive, fields: &mut Vec<Field>) {
    for meter in 0..METERS {
        let group = match archive.control.entry(meter as u32) {
            Some(_) => "present entry",
            None => "absent entry",
        };
        let at = DIRECTORY + 2 * meter;
        fields.push(Field::new(group, format!("entry {meter}"), at, 2));
    }
    for word in 0..16 {
        fields.push(Field::new("map", format!("map {word}"), MAP + 8 * word, 8));
    }
    let moving = [
        ("stage", 0, 4),
        ("meter", 4, 4),
        ("from", 8, 2),
        ("target", 10, 2),
        ("copied", 12, 4),
    ];
    for (name, at, width) in moving {
        fields.push(Field::new("move", name.to_string(), MOVE + at, width));
    }
    for (i, name) in ["begun", "committed", "aborted"].iter().enumerate() {
        fields.push(Field::new("counts", name.to_string(), COUNTS + 4 * i, 4));
    }
}

/// Header, label and payload of a block, as far as it lies within the arena: a buffer that is
/// damaged already may be damaged again. A replica's own label may not be copied yet; then the
/// words are fewer or more than it has.
fn record_fields(what: &str, meter: u32, cell: u32, archive: &Archive, fields: &mut Vec<Field>) {
    if cell >= CELLS {
        return;
    }
    let start = at(cell);
    let end = ARENA_WORDS.min(start + archive.kind(cell).words as usize);
    for (word, at) in (start..end).enumerate() {
        let group = match word {
            0 => "header",
            1 => "label",
            _ => "payload",
        };
        let name = format!("{what} of {meter} at {cell} word {word}");
        fields.push(Field::new(group, name, ARENA + 4 * at, 4));
    }
}

/// How often a group is damaged. Payload words break nothing, so few of them do.
const GROUPS: [(&str, u32); 10] = [
    ("present entry", 8),
    ("absent entry", 4),
    ("map", 8),
    ("move", 20),
    ("counts", 10),
    ("header", 12),
    ("label", 8),
    ("payload", 2),
    ("attached row", 30),
    ("unattached row", 8),
];

/// Changes one field of a buffer of the right size to another value, and says which.
pub fn damage(seed: u64, buf: &mut [u8]) -> Field {
    let mut random = Random::new(seed);
    let fields = fields(buf);
    let weights = GROUPS.map(|(_, weight)| weight);
    loop {
        let (group, _) = GROUPS[random.weighted(&weights)];
        let of_group: Vec<&Field> = fields.iter().filter(|f| f.group == group).collect();
        let field = match random.one_of(&of_group) {
            None => continue,
            Some(field) => field,
        };
        let old = field.read(buf);
        let new = field.truncate(new_value(&mut random, old, &of_group, buf));
        if new != old {
            field.write(buf, new);
            return field.clone();
        }
    }
}

/// Values near the old one, near the ends, of a neighbour, or any.
fn new_value(random: &mut Random, old: u64, of_group: &[&Field], buf: &[u8]) -> u64 {
    match random.below(12) {
        0 => 0,
        1 => 1,
        2 | 3 => old.wrapping_add(1),
        4 | 5 => old.wrapping_sub(1),
        6 => old ^ 1 << random.below(32),
        7 => old ^ 1 << random.below(3),
        8 => random
            .one_of(&[65_535, 1_023, 1_024, 1_025, 255, 256])
            .unwrap_or(0),
        9 => u64::MAX,
        10 => random.one_of(of_group).map_or(0, |field| field.read(buf)),
        _ => random.next() >> random.below(64),
    }
}

/// A sound buffer: what a schedule of the seed leaves after some steps, up to n. Every fourth is
/// aged, so that begun stands at its end or just below it.
pub fn sound_buffer(seed: u64, n: usize) -> Vec<u8> {
    let mut random = Random::new(seed);
    let weights = random.one_of(&[Weights::USUAL, Weights::CLOSE, Weights::LONG]);
    let weights = weights.unwrap_or(Weights::USUAL);
    let steps = random.below(n as u32 + 1) as usize;
    let mut archive = Archive::fresh();
    schedule_from(&mut archive, &mut random, &weights, steps);
    if random.percent(25) {
        age(&mut archive, u32::MAX - random.below(3));
    }
    if random.percent(25) {
        tighten(&mut archive);
    }
    buffer(&archive)
}

/// Raises begun, and aborted with it, as if so many more moves had been called off.
pub fn age(archive: &mut Archive, begun: u32) {
    let more = begun - archive.control.begun;
    archive.control.begun += more;
    archive.control.aborted += more;
}

/// Raises each row's swaps to the most that R8 allows.
fn tighten(archive: &mut Archive) {
    for row in 0..ROWS {
        let begun = archive.control.begun;
        let was = archive.table[row].swaps;
        let highest = (begun.saturating_sub(2)..=begun).rev().find(|&swaps| {
            archive.table[row].swaps = swaps;
            archive.first_broken_rule() == 0
        });
        archive.table[row].swaps = highest.unwrap_or(was);
    }
}
