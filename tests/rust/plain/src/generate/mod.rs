//! Inputs for the comparisons, made from a seed: the same seed gives the same input on every
//! machine. Schedules of steps, buffers damaged field by field, and texts for replay.

mod damage;
mod random;
mod schedule;
mod text;

pub use damage::{age, damage, fields, sound_buffer, Field};
pub use random::Random;
pub use schedule::{schedule, schedule_from, Weights};
pub use text::{spoil, text};
