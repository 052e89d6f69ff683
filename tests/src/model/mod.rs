//! The model of the shop's calls, written from documents 01 and 02 alone and in
//! their words. A sheet is read into a typed value, which the checks then judge in
//! the order of the table. It aims at being plain, not at being fast.

pub mod agree;
pub mod answer;
pub mod follow;
pub mod hand_out;
pub mod levels;
pub mod marks;
pub mod names;
pub mod nodes;
pub mod rules;
pub mod run;
pub mod runner;
pub mod sheet;
pub mod store;
pub mod tree;
#[cfg(test)]
mod trials;
pub mod typed;
pub mod values;

pub use answer::{number, Answer};
pub use hand_out::{hand_out, HandOut};
pub use run::{run, Call, Outcome};
pub use sheet::Sheet;

/// A check of the typed sheet.
pub struct Check {
    /// What it refuses with.
    pub numbers: &'static [u8],
    pub refusal: fn(&Sheet) -> Option<Answer>,
}

/// Rows 3, 4, 19 to 22, 6 and 7, in the order of checks.
pub const CHECKS: [Check; 5] = [
    Check {
        numbers: &[number::LEVELS_WRONG],
        refusal: |sheet| unless(levels::levels_are_right(sheet), number::LEVELS_WRONG),
    },
    Check {
        numbers: &[number::NAME_WRONG],
        refusal: |sheet| unless(names::names_are_right(sheet), number::NAME_WRONG),
    },
    Check {
        numbers: number::OF_NODES,
        refusal: nodes::first_fault,
    },
    Check {
        numbers: &[number::NOT_USED_ONCE],
        refusal: |sheet| unless(tree::uses_are_right(sheet), number::NOT_USED_ONCE),
    },
    Check {
        numbers: &[number::TOO_DEEP],
        refusal: |sheet| unless(tree::depth_is_right(sheet), number::TOO_DEEP),
    },
];

fn unless(right: bool, number: u8) -> Option<Answer> {
    (!right).then(|| Answer::plain(number))
}

/// Load judges a sheet.
pub fn load(bytes: &[u8]) -> Answer {
    match judged(bytes) {
        Ok(_) => Answer::plain(number::DONE),
        Err(refusal) => refusal,
    }
}

/// The sheet that load takes, or how it is refused.
pub fn judged(bytes: &[u8]) -> Result<Sheet, Answer> {
    let sheet = Sheet::read(bytes).map_err(Answer::plain)?;
    match CHECKS.iter().find_map(|check| (check.refusal)(&sheet)) {
        None => Ok(sheet),
        Some(refusal) => Err(refusal),
    }
}
