//! Replay: a text of admissions and steps in, a text of answers and totals out.

use crate::answer::{numbers, Outcome};
use crate::state::Archive;
use crate::step::Step;

/// "Reads standard input, at most 65,536 bytes (else prints `too long`)."
pub const MOST_BYTES: usize = 65_536;

/// "A line that is wrong, missing or extra": its number, from 1.
#[derive(Debug, PartialEq, Eq)]
pub struct BadLine(pub usize);

/// What a text asks for.
#[derive(Debug, PartialEq, Eq)]
pub struct Request {
    pub admissions: Vec<[u32; 2]>,
    pub steps: Vec<Step>,
}

/// The whole output for an input.
pub fn replay(input: &[u8]) -> Vec<u8> {
    let text = if input.len() > MOST_BYTES {
        "too long\n".to_string()
    } else {
        match parse(input) {
            Err(BadLine(number)) => format!("bad file {number}\n"),
            Ok(request) => perform(&request),
        }
    };
    text.into_bytes()
}

/// "Two sections, each after its count: admissions `meter kind`, steps `who code a b v`."
pub fn parse(input: &[u8]) -> Result<Request, BadLine> {
    let mut lines = Lines {
        rest: input,
        read: 0,
    };
    let admissions = lines.section()?;
    let steps = lines.section()?;
    lines.end()?;
    Ok(Request { admissions, steps })
}

/// The lines of a text, read one after another.
struct Lines<'a> {
    rest: &'a [u8],
    read: usize,
}

impl Lines<'_> {
    /// A count, and then that many lines of N numbers. The count may be far above what the text
    /// can hold: then a line is missing, and nothing is set aside for the count.
    fn section<const N: usize>(&mut self) -> Result<Vec<[u32; N]>, BadLine> {
        let [count] = self.line()?;
        let mut entries = Vec::new();
        for _ in 0..count {
            entries.push(self.line()?);
        }
        Ok(entries)
    }

    /// The next line as N numbers: "one space between, each line ended by LF". Where no LF is
    /// left, the line is missing or not ended; its number is the same.
    fn line<const N: usize>(&mut self) -> Result<[u32; N], BadLine> {
        self.read += 1;
        let bad = BadLine(self.read);
        let end = match self.rest.iter().position(|&byte| byte == b'\n') {
            None => return Err(bad),
            Some(end) => end,
        };
        let (line, rest) = self.rest.split_at(end);
        self.rest = &rest[1..];
        decimals(line).ok_or(bad)
    }

    /// Any byte after the last section is an extra line.
    fn end(&self) -> Result<(), BadLine> {
        if self.rest.is_empty() {
            Ok(())
        } else {
            Err(BadLine(self.read + 1))
        }
    }
}

/// Exactly N numbers with one space between.
fn decimals<const N: usize>(line: &[u8]) -> Option<[u32; N]> {
    let mut parts = line.split(|&byte| byte == b' ');
    let mut numbers = [0; N];
    for number in &mut numbers {
        *number = decimal(parts.next()?)?;
    }
    match parts.next() {
        None => Some(numbers),
        Some(_) => None,
    }
}

/// "Decimal numbers to 4294967295, no needless leading zero"
fn decimal(digits: &[u8]) -> Option<u32> {
    if digits.is_empty() || digits.len() > 1 && digits[0] == b'0' {
        return None;
    }
    let mut number = 0u32;
    for &digit in digits {
        if !digit.is_ascii_digit() {
            return None;
        }
        number = number
            .checked_mul(10)?
            .checked_add(u32::from(digit - b'0'))?;
    }
    Some(number)
}

/// "Output, each section after its count: answer and value per admission, the same per step,
/// then five totals: begun, committed, aborted, all swaps, fill."
fn perform(request: &Request) -> String {
    let mut archive = Archive::fresh();
    let mut output = String::new();
    let admissions = request.admissions.iter();
    let admissions = admissions.map(|&[meter, kind]| archive.step([0, 1, meter, kind, 0]));
    print_answers(&mut output, request.admissions.len(), admissions);
    let steps = request.steps.iter();
    let steps = steps.map(|&step| archive.step(step));
    print_answers(&mut output, request.steps.len(), steps);
    print_totals(&mut output, &archive);
    output
}

fn print_answers(output: &mut String, count: usize, outcomes: impl Iterator<Item = Outcome>) {
    output.push_str(&format!("{count}\n"));
    for outcome in outcomes {
        let (number, value) = numbers(outcome);
        output.push_str(&format!("{number} {value}\n"));
    }
}

fn print_totals(output: &mut String, archive: &Archive) {
    let control = &archive.control;
    // Eight rows of 32 bits: their sum needs more.
    let swaps: u64 = archive.table.iter().map(|row| u64::from(row.swaps)).sum();
    let totals = [
        u64::from(control.begun),
        u64::from(control.committed),
        u64::from(control.aborted),
        swaps,
        u64::from(control.map.used()),
    ];
    output.push_str(&format!("{}\n", totals.len()));
    for total in totals {
        output.push_str(&format!("{total}\n"));
    }
}
