//! Prints what replay must print for the text on standard input.

use std::io::{Read, Write};

use plain::replay;
use plain::replay::MOST_BYTES;

fn main() -> std::io::Result<()> {
    let mut input = Vec::new();
    // One byte past the most tells that the text is too long; the rest cannot matter.
    let most = MOST_BYTES as u64 + 1;
    std::io::stdin().lock().take(most).read_to_end(&mut input)?;
    std::io::stdout().write_all(&replay(&input))
}
