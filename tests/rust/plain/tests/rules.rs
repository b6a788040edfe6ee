//! Each rule of a sound state, broken on its own and from both sides, on the plain archive.

mod common;
#[path = "common/rules.rs"]
mod rules;

use common::cover;
use plain::{numbers, Archive};

/// The first broken rule, by audit, and by whether a step, a run and fill are refused.
#[track_caller]
fn meets(rule: u32, mut archive: Archive) {
    assert_eq!(numbers(archive.audit()), (30, rule));
    let refusal = |number: u32| (rule != 0) == (number == 2);
    assert!(refusal(numbers(archive.fill()).0));
    assert!(refusal(numbers(archive.run(&[], &mut [])).0));
    assert!(refusal(numbers(archive.step([9, 0, 0, 0, 0])).0));
}

#[test]
fn fill_counts_the_used_cells() {
    for used in [0, 1, 63, 64, 65, 1_023, 1_024] {
        let mut archive = Archive::fresh();
        cover(&mut archive, 0, used);
        assert_eq!(numbers(archive.fill()), (30, used));
    }
}
