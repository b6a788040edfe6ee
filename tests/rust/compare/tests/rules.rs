//! The same broken and unbroken rules on the exported calls: what they answer, and that no byte
//! changes where nothing is done.

#[path = "../../plain/tests/common/mod.rs"]
mod common;
#[path = "../../plain/tests/common/rules.rs"]
mod rules;

use plain::bytes::buffer;
use plain::Archive;

fn answer(result: u64) -> u64 {
    result >> 32
}

/// The first broken rule, by audit, and by whether a step, a run and fill are refused.
#[track_caller]
fn meets(rule: u32, archive: Archive) {
    let before = buffer(&archive);
    let mut bytes = before.clone();
    assert_eq!(compare::audit(&bytes), 30 << 32 | u64::from(rule));
    let refusal = |result: u64| (rule != 0) == (answer(result) == 2);
    assert!(refusal(compare::fill(&bytes)));
    assert!(refusal(compare::run(&mut bytes, &[], &mut [])));
    assert!(refusal(compare::step(&mut bytes, [9, 0, 0, 0, 0])));
    assert!(bytes == before, "nothing was to be done");
}
