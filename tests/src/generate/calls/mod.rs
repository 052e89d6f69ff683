//! Calls to compare others on, of run and of hand-out: sheets made to be run and any
//! others, stores that fit, outputs of any length, what else a call takes, and
//! damages to each of these. What is known of the number from how a call was made,
//! the case says.

pub mod damage;
mod draft;
mod hand_outs;
pub mod runnable;
pub mod runs;
pub mod stores;

#[cfg(test)]
mod tests;

use self::damage::Damage;
use super::{any, write, Case};
use crate::model::number::{DONE, MODE_OR_FUEL, STOPS};
use crate::model::Sheet;
use crate::random::Random;

/// A kind of call that is generated, one that writes an output.
pub trait Generated: Sized + 'static {
    /// By the number that they bring about, the last in the order of checks first.
    const GROUPS: &'static [&'static [Damage<Self>]];

    /// The generator for one call of a run.
    fn random(seed: u64, index: u64) -> Random;

    /// A call that is right, if its sheet is.
    fn undamaged(bytes: Vec<u8>, sheet: &Sheet, random: &mut Random) -> (Self, Expected);

    fn store(&mut self) -> &mut Vec<u8>;

    fn output(&mut self) -> &mut Vec<u8>;

    /// The length that the output must have, in a call that is right.
    fn needed(&self) -> usize;
}

/// What the making of a call tells of its number.
#[derive(Clone, Copy, Debug, PartialEq, Eq)]
pub enum Expected {
    Number(u8),
    /// It is run: 0, or 12 to 16.
    Runs,
    Unknown,
}

impl Expected {
    pub fn allows(self, number: u8) -> bool {
        match self {
            Expected::Number(expected) => number == expected,
            Expected::Runs => number == DONE || STOPS.contains(&number),
            Expected::Unknown => true,
        }
    }
}

/// A call, and what its making tells of its number.
pub struct CallCase<C> {
    pub call: C,
    pub expected: Expected,
}

/// The call of this index in the run of this seed.
pub fn call_case<C: Generated>(seed: u64, index: u64) -> CallCase<C> {
    let random = &mut C::random(seed, index);
    let sheet = sheet(random);
    let damages = some_damages(random);
    with_damages(sheet, damages, random)
}

/// None mostly; else one damage of each of one to three groups.
fn some_damages<C: Generated>(random: &mut Random) -> Vec<&'static Damage<C>> {
    let times = match random.below(16) {
        0..10 => 0,
        10..13 => 1,
        13 | 14 => 2,
        _ => 3,
    };
    let groups = C::GROUPS.len();
    let hit: Vec<usize> = (0..times).map(|_| random.below(groups)).collect();
    let groups = (0..groups).filter(|group| hit.contains(group));
    let mut damage = |group: usize| {
        let group = C::GROUPS[group];
        &group[random.below(group.len())]
    };
    groups.map(&mut damage).collect()
}

/// Any sheet, most often one made to be run.
fn sheet(random: &mut Random) -> Case {
    match random.below(100) {
        0..75 => runnable_case(random),
        _ => any(random),
    }
}

/// A sheet that is made to be run, and taken.
fn runnable_case(random: &mut Random) -> Case {
    Case {
        bytes: write::bytes(&runnable::sheet(random)),
        expected: Some(DONE),
    }
}

/// A call of this sheet with these damages, which stand in the groups' order. A
/// sheet that can't be read comes with a store for another one.
pub fn with_damages<C: Generated>(
    sheet: Case,
    mut damages: Vec<&Damage<C>>,
    random: &mut Random,
) -> CallCase<C> {
    let Case { bytes, expected } = sheet;
    let sheet = Sheet::read(&bytes).unwrap_or_else(|_| runnable::sheet(random));
    let (mut call, right) = C::undamaged(bytes, &sheet, random);
    damages.retain(|damage| damage.change(&mut call, &sheet, random));
    let first = damages.last().map(|damage| damage.number);
    CallCase {
        call,
        expected: match (expected, first) {
            (_, Some(MODE_OR_FUEL)) => Expected::Number(MODE_OR_FUEL),
            (None, _) => Expected::Unknown,
            (Some(DONE), None) => right,
            (Some(DONE), Some(number)) => Expected::Number(number),
            (Some(number), _) => Expected::Number(number),
        },
    }
}

/// An output of the length that is needed, or a longer one.
fn output_of(needed: usize, random: &mut Random) -> Vec<u8> {
    let longer = match random.below(16) {
        0..8 => 0,
        8 => 1,
        9..15 => random.spread(30),
        _ => random.spread(1_000),
    };
    random.bytes(needed + longer)
}
