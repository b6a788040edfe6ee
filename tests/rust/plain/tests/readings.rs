//! The readings taken, each on the input that tells it from another one.

use plain::bytes::{audit_bytes, step_bytes};
use plain::readings::{of_the_rules, of_the_steps, of_the_texts, Call};
use plain::replay;

#[test]
fn of_rules_and_steps() {
    for reading in of_the_rules().into_iter().chain(of_the_steps()) {
        let mut buf = reading.before.clone();
        let result = match reading.call {
            Call::Audit => audit_bytes(&buf),
            Call::Step(step) => step_bytes(&mut buf, step),
        };
        let split = |result: u64| (result >> 32, result as u32);
        assert_eq!(split(result), split(reading.result), "{}", reading.name);
        assert!(buf == reading.after, "{}: the bytes after it", reading.name);
        if reading.call == Call::Audit {
            assert_ne!(reading.result, reading.other, "{}", reading.name);
        } else {
            assert_eq!(audit_bytes(&reading.before), 30 << 32, "{}", reading.name);
        }
    }
}

#[test]
fn of_texts() {
    for reading in of_the_texts() {
        let output = String::from_utf8(replay(reading.input.as_bytes())).unwrap();
        assert_eq!(output, reading.output, "{}", reading.name);
    }
}
