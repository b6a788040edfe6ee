//! Writes texts for replay.
//!
//! `gen STEPS SEED` prints the text of one seed; `gen STEPS FIRST LAST FOLDER` writes those of
//! the seeds from FIRST to LAST into FOLDER, as SEED.in, with what replay prints as SEED.out.

use std::io::Write;
use std::path::Path;
use std::process::ExitCode;

use plain::generate::text;
use plain::replay;

fn main() -> ExitCode {
    let arguments: Vec<String> = std::env::args().skip(1).collect();
    let arguments: Vec<&str> = arguments.iter().map(String::as_str).collect();
    match write(&arguments) {
        Ok(()) => ExitCode::SUCCESS,
        Err(complaint) => {
            eprintln!("gen: {complaint}");
            ExitCode::FAILURE
        }
    }
}

fn write(arguments: &[&str]) -> Result<(), String> {
    match arguments {
        [steps, seed] => {
            let text = text(number(seed)?, number(steps)? as usize);
            let mut out = std::io::stdout();
            out.write_all(&text).map_err(|error| error.to_string())
        }
        [steps, first, last, folder] => {
            for seed in number(first)?..=number(last)? {
                write_pair(Path::new(folder), seed, number(steps)? as usize)?;
            }
            Ok(())
        }
        _ => Err("usage: gen STEPS SEED, or gen STEPS FIRST LAST FOLDER".to_string()),
    }
}

fn write_pair(folder: &Path, seed: u64, steps: usize) -> Result<(), String> {
    let input = text(seed, steps);
    let output = replay(&input);
    let put = |ending: &str, bytes: &[u8]| {
        let path = folder.join(format!("{seed}.{ending}"));
        std::fs::write(&path, bytes).map_err(|error| format!("{}: {error}", path.display()))
    };
    put("in", &input)?;
    put("out", &output)
}

fn number(argument: &str) -> Result<u64, String> {
    let parsed = argument.parse::<u64>();
    parsed.map_err(|_| format!("{argument} is no number"))
}
