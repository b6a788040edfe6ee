//! The built program beside the plain archive: the same bytes for random texts, and for texts
//! that are damaged. REPLAY is the command that starts the program, SEEDS how many seeds, of four
//! texts each. Ignored unless asked for: it needs the built program (tests/replay.sh).

use std::io::Write;
use std::process::{Command, Stdio};

use plain::generate::{spoil, text};
use plain::replay;

/// What the program prints for a text.
fn printed(command: &[&str], input: &[u8]) -> Vec<u8> {
    let mut child = Command::new(command[0])
        .args(&command[1..])
        .stdin(Stdio::piped())
        .stdout(Stdio::piped())
        .spawn()
        .expect("the program starts");
    let mut to_child = child.stdin.take().unwrap();
    let input = input.to_vec();
    // It stops reading where a text is too long.
    let writer = std::thread::spawn(move || to_child.write_all(&input));
    let output = child.wait_with_output().expect("the program ends");
    let _ = writer.join().unwrap();
    assert!(output.status.success(), "the program failed");
    output.stdout
}

fn same(command: &[&str], input: &[u8], what: &str) {
    let (proved, plain) = (printed(command, input), replay(input));
    if proved != plain {
        let line = (proved.split(|&byte| byte == b'\n'))
            .zip(plain.split(|&byte| byte == b'\n'))
            .position(|(one, other)| one != other);
        panic!("{what}: line {line:?} of the output differs");
    }
}

#[test]
#[ignore]
fn random_texts() {
    let command = std::env::var("REPLAY").expect("REPLAY starts the program");
    let command: Vec<&str> = command.split_whitespace().collect();
    let seeds = std::env::var("SEEDS").map_or(400, |seeds| seeds.parse().unwrap());
    for seed in 0..seeds {
        let steps = if seed % 16 == 0 { 6_000 } else { 300 };
        let mut input = text(seed, steps);
        same(&command, &input, &format!("seed {seed}"));
        for damage in 0..3 {
            spoil(4 * seed + damage, &mut input);
            same(&command, &input, &format!("seed {seed}, damage {damage}"));
        }
    }
    println!(
        "{} texts, each printed as the plain archive prints it",
        4 * seeds
    );
}
