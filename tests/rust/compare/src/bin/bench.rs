//! How long `tangvrak_run` takes on 4,096 steps, mostly reads and writes with moves in between,
//! beside the plain archive over the same bytes. Buffers are set up outside the clock, and the
//! results are compared before any time is noted.

use std::time::Instant;

use plain::bytes;
use plain::generate::{schedule_from, Random, Weights};
use plain::state::Archive;

const STEPS: usize = 4_096;
const ROUNDS: usize = 300;

const MIXED: Weights = Weights {
    access: 80,
    moves: 12,
    rest: 3,
    stray: 0,
    ..Weights::USUAL
};

/// The shortest of many rounds, each on buffers made outside the clock, in nanoseconds.
fn shortest(before: &[u8], slots: usize, call: &dyn Fn(&mut [u8], &mut [u8])) -> u128 {
    let mut best = u128::MAX;
    for _ in 0..ROUNDS {
        let mut buffer = before.to_vec();
        let mut slots = vec![0; slots];
        let start = Instant::now();
        call(&mut buffer, &mut slots);
        best = best.min(start.elapsed().as_nanos());
    }
    best
}

fn main() {
    let mut archive = Archive::fresh();
    let mut random = Random::new(7);
    schedule_from(&mut archive, &mut random, &Weights::USUAL, 2_000);
    let before = bytes::buffer(&archive);
    let steps = compare::step_bytes(&schedule_from(&mut archive, &mut random, &MIXED, STEPS));

    let (mut proved, mut plain) = (before.clone(), before.clone());
    let (mut proved_slots, mut plain_slots) = (vec![0; 8 * STEPS], vec![0; 8 * STEPS]);
    let result = compare::run(&mut proved, &steps, &mut proved_slots);
    assert_eq!(
        result,
        bytes::run_bytes(&mut plain, &steps, &mut plain_slots)
    );
    assert_eq!(result, 30 << 32);
    assert!(
        proved_slots == plain_slots && proved == plain,
        "the results differ"
    );
    let mut answers = [0usize; 36];
    for slot in plain_slots.chunks(8) {
        answers[slot[0] as usize] += 1;
    }

    let ours = shortest(&before, 8 * STEPS, &|buffer, slots| {
        compare::run(buffer, &steps, slots);
    });
    let theirs = shortest(&before, 8 * STEPS, &|buffer, slots| {
        bytes::run_bytes(buffer, &steps, slots);
    });
    println!(
        "{} steps, {} of them accesses finished, {} moves begun, {} words copied",
        STEPS,
        answers[34] + answers[35],
        answers[21],
        answers[24]
    );
    println!(
        "proved {} us, plain {} us: ratio {:.2}",
        ours / 1_000,
        theirs / 1_000,
        ours as f64 / theirs as f64
    );
}
