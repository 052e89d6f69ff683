//! The comparison of the model with others, up to the first difference: its load
//! with any judge of sheets, its run and hand-out with whoever answers such calls.

pub mod calls;
pub mod divisions;
pub mod effect;
pub mod hand_out;
pub mod load;
pub mod partial_asked;
pub mod run;

use crate::model::number;
use crate::shares::Counted;
use std::fmt;

/// How often each number came back; a call gives those of its `NUMBERS`.
pub type Times = [u64; number::NODE_SORT as usize + 1];

/// How many gave each of these numbers.
pub fn counted<'a>(numbers: &'a [usize], times: &'a Times) -> impl Iterator<Item = Counted> + 'a {
    let gave = |&number: &usize| (format!("gave number {number}"), times[number]);
    numbers.iter().map(gave)
}

/// Writes a line of bytes in hex under their name.
pub fn hex(out: &mut fmt::Formatter, name: &str, bytes: &[u8]) -> fmt::Result {
    write!(out, "{name}, {} bytes: ", bytes.len())?;
    bytes
        .iter()
        .try_for_each(|byte| write!(out, "{byte:02x}"))?;
    writeln!(out)
}
