//! Sheets to compare judges on: valid ones, damaged ones, tiny ones thrown
//! together, and garbage. Where the number is known from how a sheet was made,
//! the case says so; that is a check of the model by other means.

pub mod calls;
pub mod damage;
mod garbage;
mod levels;
mod names;
mod numbering;
pub mod pairs;
mod tiny;
mod tree;
mod valid;
pub mod write;

#[cfg(test)]
mod tests;

use crate::model::number;
use crate::random::Random;

/// A sheet, and the number that it must get if its making tells.
pub struct Case {
    pub bytes: Vec<u8>,
    pub expected: Option<u8>,
}

/// The sheet of this index in the run of this seed.
pub fn case(seed: u64, index: u64) -> Case {
    any(&mut Random::of_sheet(seed, index))
}

/// A sheet of any kind.
fn any(random: &mut Random) -> Case {
    match random.below(100) {
        0..25 => Case {
            bytes: write::bytes(&valid::sheet(random)),
            expected: Some(number::DONE),
        },
        25..80 => damage::damaged(random),
        80..92 => Case {
            bytes: write::bytes(&tiny::sheet(random)),
            expected: None,
        },
        _ => Case {
            bytes: garbage::bytes(random),
            expected: None,
        },
    }
}
