//! The generator: what it makes is the same each time, meets every answer and every rule, and
//! the archive stays sound under it.

use std::collections::BTreeMap;

use plain::bytes::{audit_bytes, buffer, decode, SIZE};
use plain::generate::{
    age, damage, fields, schedule, schedule_from, sound_buffer, spoil, text, Random, Weights,
};
use plain::{numbers, replay, Archive, Phase, Stage};

const SEEDS: u64 = 40;
const STEPS: usize = 1_500;

#[test]
fn a_seed_makes_one_schedule() {
    assert_eq!(schedule(5, 300), schedule(5, 300));
    assert_ne!(schedule(5, 300), schedule(10, 300));
    assert_eq!(schedule(5, 300)[..100], schedule(5, 100)[..]);
    assert_eq!(text(5, 300), text(5, 300));
    assert!(sound_buffer(5, 300) == sound_buffer(5, 300));
}

#[test]
fn schedules_meet_every_answer_and_stay_sound() {
    let mut met: BTreeMap<(u32, u32), u32> = BTreeMap::new();
    let mut accepted = 0;
    let mut waits_on_another = 0;
    for seed in 0..SEEDS {
        let mut archive = Archive::fresh();
        let mut counts = [0; 4];
        for step in schedule(seed, STEPS) {
            let outcome = archive.step(step);
            assert_eq!(archive.first_broken_rule(), 0, "seed {seed} after {step:?}");
            let (number, value) = numbers(outcome);
            accepted += u32::from(outcome.is_ok());
            // The value matters for 33 alone here: won or lost.
            let value = if number == 33 { value } else { 0 };
            *met.entry((number, value)).or_default() += 1;
            for (count, counted) in counts.iter_mut().zip([21, 25, 26, 33]) {
                *count += u32::from(number == counted);
            }
            waits_on_another += u32::from(waits_on_another_than_the_flagged(&archive));
        }
        // The counts of the control record and of the rows are those of the answers.
        let control = &archive.control;
        let swaps: u32 = archive.table.iter().map(|row| row.swaps).sum();
        let told = [control.begun, control.committed, control.aborted, swaps];
        assert_eq!(told, counts, "seed {seed}");
    }
    for number in (20..=27).chain(30..=35).chain(3..=14) {
        let often = met.get(&(number, 0)).copied().unwrap_or(0);
        assert!(often >= 10, "{number} is met {often} times: {met:?}");
    }
    assert!(met[&(33, 1)] >= 100 && met[&(33, 0)] >= 100, "{met:?}");
    assert!(waits_on_another >= 100, "{waits_on_another}");
    let all = SEEDS as u32 * STEPS as u32;
    assert!(
        accepted > all / 100 * 75 && accepted < all / 100 * 98,
        "{accepted} of {all}"
    );
}

fn waits_on_another_than_the_flagged(archive: &Archive) -> bool {
    let moving = archive.control.moving;
    let from = u32::from(moving.from);
    let is_flagged = moving.stage != Stage::Idle && archive.header(from) == 2 * from + 1;
    let waits = |row: &plain::Row| match row.phase {
        Phase::Waiting { cell, .. } => cell != from,
        _ => false,
    };
    is_flagged && archive.table.iter().any(waits)
}

#[test]
fn begun_at_its_end_is_met_from_aged_states() {
    let mut archive = Archive::fresh();
    for step in [[0, 1, 1, 0, 0], [0, 1, 2, 0, 0], [0, 2, 1, 0, 0]] {
        archive.step(step).unwrap();
    }
    age(&mut archive, u32::MAX);
    assert_eq!(numbers(archive.step([0, 3, 2, 0, 0])), (15, 0));
    let ends = (0..80).filter(|&seed| {
        let archive = decode(&sound_buffer(seed, 300)).unwrap();
        archive.control.begun == u32::MAX
    });
    assert!(ends.count() >= 3);
}

#[test]
fn damage_changes_one_field_and_meets_every_rule() {
    let mut rules = [0; 9];
    let mut groups: BTreeMap<&str, [u32; 9]> = BTreeMap::new();
    for seed in 0..4_000 {
        let sound = sound_buffer(seed / 20, 300);
        let mut buf = sound.clone();
        let field = damage(seed, &mut buf);
        let changed: Vec<usize> = (0..SIZE).filter(|&i| buf[i] != sound[i]).collect();
        assert!(!changed.is_empty(), "{field:?}");
        let within = |&at: &usize| field.at <= at && at < field.at + field.width;
        assert!(changed.iter().all(within), "{field:?}");
        let rule = audit_bytes(&buf) as u32 as usize;
        rules[rule] += 1;
        groups.entry(field.group).or_default()[rule] += 1;
    }
    // Some damage breaks nothing: payload words, or a hold that becomes another record.
    for (rule, &count) in rules.iter().enumerate() {
        assert!(count >= 40, "rule {rule} is met {count} times: {groups:#?}");
    }
}

#[test]
fn damage_may_be_done_again_and_again() {
    for seed in 0..200 {
        let mut buf = sound_buffer(seed, 200);
        for again in 0..6 {
            damage(6 * seed + again, &mut buf);
            // No damage may be beyond the rules' reach.
            assert!(audit_bytes(&buf) >> 32 == 30);
        }
    }
}

/// A run checks soundness once and a step each time: they can only be equal if no step leads
/// from a sound state to one that is not, not even from one that no run reaches.
#[test]
fn sound_states_that_no_run_reaches_stay_sound() {
    let mut damaged = 0;
    for seed in 0..300 {
        let mut buf = sound_buffer(seed, 300);
        for again in 0..60 {
            let mut next = buf.clone();
            damage(1_000 * seed + again, &mut next);
            if audit_bytes(&next) == 30 << 32 {
                buf = next;
                damaged += 1;
            }
        }
        let mut archive = decode(&buf).unwrap();
        let mut before = archive.clone();
        let mut random = Random::new(seed);
        for step in schedule_from(&mut archive, &mut random, &Weights::CLOSE, 150) {
            let _ = before.act(step);
            assert_eq!(before.first_broken_rule(), 0, "seed {seed} after {step:?}");
        }
        assert!(before == archive);
    }
    assert!(damaged > 1_000, "{damaged}");
}

#[test]
fn fields_cover_the_control_record_and_the_table() {
    let buf = buffer(&Archive::fresh());
    let mut covered = vec![0; SIZE];
    for field in fields(&buf) {
        for times in &mut covered[field.at..field.at + field.width] {
            *times += 1;
        }
    }
    assert!(covered[..668].iter().all(|&times| times == 1));
    assert!(covered[668..33_436].iter().all(|&times| times == 0));
    assert!(covered[33_436..].iter().all(|&times| times == 1));
}

#[test]
fn texts_are_read_and_fit() {
    for seed in 0..20 {
        let short = text(seed, 200);
        assert!(short.len() < 20_000);
        let output = replay(&short);
        assert!(!output.starts_with(b"bad") && !output.starts_with(b"too"));
        let long = text(seed, 10_000);
        assert!(
            long.len() <= 65_536 && long.len() > 65_000,
            "{}",
            long.len()
        );
        assert!(!replay(&long).starts_with(b"bad"));
    }
}

#[test]
fn spoilt_texts_are_mostly_bad_and_some_are_still_good() {
    let mut bad = 0;
    for seed in 0..600 {
        let mut text = text(seed, 30);
        spoil(seed, &mut text);
        bad += u32::from(replay(&text).starts_with(b"bad file "));
    }
    assert!(bad > 400 && bad < 600, "{bad}");
}
