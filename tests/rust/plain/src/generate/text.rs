//! Texts for replay: good ones from a schedule, and bad ones from those.

use super::{schedule_from, Random, Weights};
use crate::replay::MOST_BYTES;
use crate::state::Archive;
use crate::step::Step;

/// The text of a schedule, as many of its n steps as fit into the bytes that replay reads.
/// Its first section admits a few records before the schedule does.
pub fn text(seed: u64, n: usize) -> Vec<u8> {
    let mut random = Random::new(!seed);
    let admissions = admissions(&mut random);
    let steps = schedule_after(seed, n, &admissions);
    let mut first = format!("{}\n", admissions.len());
    for [meter, kind] in &admissions {
        first.push_str(&format!("{meter} {kind}\n"));
    }
    let mut second = String::new();
    let mut count = 0;
    // The count's own line has at most six bytes.
    for [who, code, a, b, v] in steps {
        let line = format!("{who} {code} {a} {b} {v}\n");
        if first.len() + 6 + second.len() + line.len() > MOST_BYTES {
            break;
        }
        second.push_str(&line);
        count += 1;
    }
    format!("{first}{count}\n{second}").into_bytes()
}

/// Up to twelve admissions, a few of them refused.
fn admissions(random: &mut Random) -> Vec<[u32; 2]> {
    let count = random.below(13);
    let meter = |random: &mut Random| match random.below(10) {
        0 => 255,
        1 => 256,
        _ => random.below(20),
    };
    let kind = |random: &mut Random| match random.below(20) {
        0 => 4,
        _ => random.below(4),
    };
    (0..count).map(|_| [meter(random), kind(random)]).collect()
}

/// The steps of a schedule that starts where the admissions end.
fn schedule_after(seed: u64, n: usize, admissions: &[[u32; 2]]) -> Vec<Step> {
    let mut archive = Archive::fresh();
    for &[meter, kind] in admissions {
        let _ = archive.act([0, 1, meter, kind, 0]);
    }
    let mut random = Random::new(seed);
    schedule_from(&mut archive, &mut random, Weights::of_seed(seed), n)
}

/// Changes a text in one place, so that it mostly breaks the form that replay asks for.
pub fn spoil(seed: u64, text: &mut Vec<u8>) {
    let mut random = Random::new(seed);
    let at = random.below(text.len() as u32 + 1) as usize;
    match random.below(14) {
        0 => text.truncate(at),
        1 => text.insert(at, b'\n'),
        2 => text.insert(at, b' '),
        3 => text.insert(at, b'0'),
        4 => text.insert(at, b'9'),
        5 => text.insert(at, random.word() as u8),
        6 => text.extend_from_slice(b"\n"),
        7 => text.extend_from_slice(b"0 4 0 0 0\n"),
        8 => remove(text, at),
        9 => replace(text, at, random.word() as u8),
        10 => replace(text, at, b"\t\r+-,x/:"[random.below(8) as usize]),
        11 => drop_line(text, at),
        12 => first_number(text, "4294967295"),
        _ => first_number(text, "4294967296"),
    }
}

fn remove(text: &mut Vec<u8>, at: usize) {
    if at < text.len() {
        text.remove(at);
    }
}

fn replace(text: &mut [u8], at: usize, byte: u8) {
    if let Some(old) = text.get_mut(at) {
        *old = byte;
    }
}

/// Takes away the line that a place lies in.
fn drop_line(text: &mut Vec<u8>, at: usize) {
    let is_end = |&byte: &u8| byte == b'\n';
    let start = text[..at].iter().rposition(is_end).map_or(0, |end| end + 1);
    let end = text[at..].iter().position(is_end);
    let end = end.map_or(text.len(), |end| at + end + 1);
    text.drain(start..end);
}

fn first_number(text: &mut Vec<u8>, number: &str) {
    let digits = text.iter().take_while(|byte| byte.is_ascii_digit()).count();
    text.splice(..digits, number.bytes());
}
