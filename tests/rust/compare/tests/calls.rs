//! Every call through the exported form, beside the plain archive: the same result and, after each
//! call, the same bytes.

use std::collections::BTreeSet;

use compare::step_bytes;
use plain::bytes::{self, SIZE};
use plain::generate::{
    age, damage, fields, schedule, schedule_from, sound_buffer, Field, Random, Weights,
};
use plain::readings::{of_the_rules, of_the_steps, Call};
use plain::state::Archive;
use plain::step::Step;

/// Two buffers that must stay the same, one for each side.
struct Pair {
    proved: Vec<u8>,
    plain: Vec<u8>,
}

impl Pair {
    fn of(buffer: &[u8]) -> Pair {
        Pair {
            proved: buffer.to_vec(),
            plain: buffer.to_vec(),
        }
    }

    fn same(&self, what: &dyn std::fmt::Display) {
        if let Some(at) = (0..self.plain.len()).find(|&i| self.proved[i] != self.plain[i]) {
            panic!(
                "{}: byte {} is {}, not {}",
                what, at, self.proved[at], self.plain[at]
            );
        }
    }

    fn step(&mut self, step: Step, what: &str) -> u64 {
        let proved = compare::step(&mut self.proved, step);
        let plain = bytes::step_bytes(&mut self.plain, step);
        assert_eq!(proved, plain, "{}: result of {:?}", what, step);
        self.same(&format!("{}: after {:?}", what, step));
        plain
    }

    fn run(&mut self, steps: &[u8], slots: usize, what: &str) -> u64 {
        let mut proved_slots = vec![0xa5; slots];
        let mut plain_slots = proved_slots.clone();
        let proved = compare::run(&mut self.proved, steps, &mut proved_slots);
        let plain = bytes::run_bytes(&mut self.plain, steps, &mut plain_slots);
        assert_eq!(proved, plain, "{}: result of the run", what);
        assert!(proved_slots == plain_slots, "{}: slots of the run", what);
        self.same(&format!("{}: after the run", what));
        plain
    }

    fn looks(&self, what: &str) {
        assert_eq!(
            compare::fill(&self.proved),
            bytes::fill_bytes(&self.plain),
            "{}: fill",
            what
        );
        assert_eq!(
            compare::audit(&self.proved),
            bytes::audit_bytes(&self.plain),
            "{}: audit",
            what
        );
        self.same(&format!("{}: after fill and audit", what));
    }
}

fn fresh() -> Vec<u8> {
    bytes::buffer(&Archive::fresh())
}

#[test]
fn steps_from_fresh() {
    let mut steps = 0;
    for seed in 0..70 {
        let what = format!("seed {}", seed);
        let mut pair = Pair::of(&fresh());
        for step in schedule(seed, 1_500) {
            pair.step(step, &what);
            steps += 1;
        }
        pair.looks(&what);
    }
    assert!(steps >= 100_000);
}

#[test]
fn steps_from_sound_states_that_no_run_reaches() {
    for seed in 0..150 {
        let what = format!("sound seed {}", seed);
        let buffer = sound_buffer(seed, 400);
        let mut pair = Pair::of(&buffer);
        let mut archive = bytes::decode(&buffer).expect("a sound buffer");
        let weights = Weights::of_seed(seed);
        for step in schedule_from(&mut archive, &mut Random::new(seed), weights, 200) {
            pair.step(step, &what);
        }
        pair.looks(&what);
    }
}

#[test]
fn damaged_buffers() {
    let mut broken = [0; 9];
    let (mut offered, mut damaged) = (BTreeSet::new(), BTreeSet::new());
    for seed in 0..6_000 {
        let mut buffer = sound_buffer(seed / 4, 300);
        offered.extend(fields(&buffer).iter().map(Field::kind));
        let field = damage(seed, &mut buffer);
        damaged.insert(field.kind());
        let what = format!("damage of seed {} at byte {}", seed, field.at);
        let mut pair = Pair::of(&buffer);
        pair.looks(&what);
        broken[(bytes::audit_bytes(&buffer) & 0xff) as usize] += 1;
        for step in schedule(seed, 4) {
            pair.step(step, &what);
        }
        pair.run(&step_bytes(&schedule(seed, 3)), 24, &what);
    }
    assert!(broken.iter().all(|&n| n > 20), "rules met: {:?}", broken);
    assert_eq!(damaged, offered, "fields damaged, of those there are");
}

#[test]
fn runs_from_fresh() {
    for seed in 0..40 {
        let what = format!("run of seed {}", seed);
        let mut pair = Pair::of(&fresh());
        let steps = schedule(seed, 4_096);
        let mut random = Random::new(seed);
        let mut from = 0;
        while from < steps.len() {
            let n = (random.below(600) as usize).min(steps.len() - from);
            pair.run(&step_bytes(&steps[from..from + n]), 8 * n, &what);
            from += n;
        }
        pair.looks(&what);
    }
}

#[test]
fn a_run_is_its_steps() {
    for seed in 0..10 {
        let steps = schedule(seed, 4_096);
        let mut once = fresh();
        let mut each = fresh();
        let mut slots = vec![0; 8 * steps.len()];
        assert_eq!(
            compare::run(&mut once, &step_bytes(&steps), &mut slots),
            30 << 32
        );
        for (step, slot) in steps.iter().zip(slots.chunks(8)) {
            let result = compare::step(&mut each, *step);
            let (answer, value) = ((result >> 32) as u32, result as u32);
            assert_eq!(slot[..4], answer.to_le_bytes());
            assert_eq!(slot[4..], value.to_le_bytes());
        }
        assert!(once == each, "bytes of seed {}", seed);
    }
}

#[test]
fn sizes_of_a_run() {
    let one = step_bytes(&[[0, 1, 1, 0, 0]]);
    let most = step_bytes(&schedule(1, 4_096));
    let more = step_bytes(&schedule(1, 4_097));
    let mut unsound = fresh();
    unsound[640] = 7;
    for buffer in [fresh(), unsound, vec![0; SIZE - 1]] {
        for (steps, slots) in [
            (&one[..0], 0),
            (&one[..0], 8),
            (&one[..19], 8),
            (&one[..], 7),
            (&one[..], 8),
            (&one[..], 9),
            (&one[..], 16),
            (&most[..], 8 * 4_096),
            (&more[..], 8 * 4_097),
        ] {
            let what = format!("{} step bytes, {} slot bytes", steps.len(), slots);
            Pair::of(&buffer).run(steps, slots, &what);
        }
    }
}

#[test]
fn sizes_of_the_buffer() {
    for size in [0, 1, 667, SIZE - 1, SIZE + 1, 2 * SIZE] {
        let what = format!("{} bytes", size);
        let mut pair = Pair::of(&vec![3; size]);
        assert_eq!(compare::fresh(&mut pair.proved), 1 << 32);
        pair.same(&what);
        pair.looks(&what);
        assert_eq!(pair.step([0, 1, 1, 0, 0], &what), 1 << 32);
        pair.run(&[], 0, &what);
    }
}

#[test]
fn fresh_over_anything() {
    for seed in 0..50 {
        let mut random = Random::new(seed);
        let buffer: Vec<u8> = (0..SIZE).map(|_| random.word() as u8).collect();
        let mut pair = Pair::of(&buffer);
        pair.looks("anything");
        pair.step([1, 10, 0, 0, 0], "anything");
        assert_eq!(
            compare::fresh(&mut pair.proved),
            bytes::fresh_bytes(&mut pair.plain)
        );
        pair.same(&"fresh");
        assert!(pair.proved == fresh());
    }
}

// Case 9: begun one below its end and at it, meter 255 against 256, hold 3 against 4.
#[test]
fn case_9() {
    let mut archive = Archive::fresh();
    for step in [
        [0, 1, 1, 0, 0],
        [0, 1, 255, 0, 0],
        [0, 2, 1, 0, 0],
        [1, 10, 0, 0, 0],
    ] {
        archive.step(step).expect("accepted");
    }
    for (begun, answer) in [(u32::MAX - 1, 21), (u32::MAX, 15)] {
        age(&mut archive, begun);
        let mut pair = Pair::of(&bytes::buffer(&archive));
        assert_eq!(pair.step([0, 3, 255, 0, 0], "begun") >> 32, answer);
    }
    let mut pair = Pair::of(&bytes::buffer(&archive));
    assert_eq!(pair.step([0, 1, 256, 0, 0], "meter 256") >> 32, 5);
    assert_eq!(pair.step([1, 12, 255, 3, 0], "hold 3") >> 32, 30);
    assert_eq!(pair.step([1, 12, 255, 4, 0], "hold 4") >> 32, 5);
}

#[test]
fn readings_of_the_specification() {
    for reading in of_the_rules().into_iter().chain(of_the_steps()) {
        let mut buffer = reading.before.clone();
        let result = match reading.call {
            Call::Audit => compare::audit(&buffer),
            Call::Step(step) => compare::step(&mut buffer, step),
        };
        assert_eq!(result, reading.result, "{}", reading.name);
        assert!(buffer == reading.after, "bytes of: {}", reading.name);
    }
}
