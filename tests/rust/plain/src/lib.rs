//! The archive as the specification describes it, in plain Rust.
//!
//! It shares no code with the proved library: it is what that library is
//! compared with, answer by answer and byte by byte, and the baseline of
//! its speed. Most functions quote the sentence they follow.

pub mod answer;
pub mod bytes;
pub mod generate;
pub mod map;
pub mod readings;
pub mod replay;
pub mod sound;
pub mod state;
pub mod step;

pub use answer::{numbers, packed, Answer, Outcome, Refusal};
pub use replay::replay;
pub use state::{Access, Archive, Control, Header, Move, Phase, Row, Stage};
pub use step::Step;
