//! Damaged sheets: a valid sheet with one to three damages. Most damages bring
//! about one number for certain, and then the number of the whole is known: the
//! first in the order of checks, as long as no other damage can have undone or
//! overtaken it.

mod bytes;
mod counts;
mod levels;
mod names;
mod nodes;
mod tree;

use super::write::Written;
use super::{valid, Case};
use crate::model::number::{COUNT_OUTSIDE, DONE, NOT_USED_ONCE, OF_NODES, SHEET_LENGTH, TOO_DEEP};
use crate::model::sheet::Sheet;
use crate::random::Random;
use std::cmp::Reverse;

/// How a damage is done; false if it doesn't fit the sheet, which then stays.
#[derive(Clone, Copy)]
enum Change {
    /// To the typed sheet.
    Sheet(fn(&mut Sheet, &mut Random) -> bool),
    /// To the written bytes.
    Bytes(fn(&mut Written, &mut Random) -> bool),
}

/// One way to damage a sheet.
#[derive(Clone, Copy)]
pub struct Damage {
    pub name: &'static str,
    /// The number that it brings about, if it is sure to.
    pub number: Option<u8>,
    change: Change,
}

impl Damage {
    const fn to_sheet(
        name: &'static str,
        number: u8,
        change: fn(&mut Sheet, &mut Random) -> bool,
    ) -> Damage {
        Damage {
            name,
            number: Some(number),
            change: Change::Sheet(change),
        }
    }

    const fn to_bytes(
        name: &'static str,
        number: u8,
        change: fn(&mut Written, &mut Random) -> bool,
    ) -> Damage {
        Damage {
            name,
            number: Some(number),
            change: Change::Bytes(change),
        }
    }

    const fn unsure(name: &'static str, change: Change) -> Damage {
        Damage {
            name,
            number: None,
            change,
        }
    }

    fn is_to_bytes(&self) -> bool {
        matches!(self.change, Change::Bytes(_))
    }
}

/// All damages, by the number that they bring about, the unsure ones last.
pub const GROUPS: [&[Damage]; 13] = [
    bytes::LENGTHS,
    counts::COUNTS,
    levels::LEVELS,
    names::NAMES,
    nodes::UNKNOWN,
    nodes::UNUSED,
    nodes::RANGES,
    nodes::SORTS,
    tree::USES,
    tree::DEPTHS,
    levels::UNSURE,
    nodes::UNSURE,
    bytes::UNSURE,
];

/// A valid sheet with one to three damages from any groups.
pub fn damaged(random: &mut Random) -> Case {
    let mut damages = Vec::new();
    for _ in 0..random.pick(&[1, 1, 2, 3]) {
        let group = random.pick(&GROUPS);
        damages.push(random.pick(group));
    }
    with_damages(damages, random)
}

/// Where a number stands in the order of checks: what is wrong with a node stands in
/// 5's position, whichever it is, since the lowest node is told first.
fn position(number: u8) -> u8 {
    match OF_NODES.contains(&number) {
        true => 5,
        false => number,
    }
}

/// A valid sheet with these damages: the sheet's before the bytes', unsure ones
/// first, then from the last in the order of checks up.
pub fn with_damages(mut damages: Vec<Damage>, random: &mut Random) -> Case {
    damages.sort_by_key(|damage| {
        let position = damage.number.map_or(u8::MAX, position);
        (damage.is_to_bytes(), Reverse(position))
    });
    let mut sheet = valid::sheet(random);
    damages.retain(|damage| match damage.change {
        Change::Sheet(change) => change(&mut sheet, random),
        Change::Bytes(_) => true,
    });
    let mut written = Written::from(&sheet);
    damages.retain(|damage| match damage.change {
        Change::Sheet(_) => true,
        Change::Bytes(change) => change(&mut written, random),
    });
    Case {
        bytes: written.bytes,
        expected: expected(&damages),
    }
}

/// The number that these damages together are sure to bring about.
fn expected(damages: &[Damage]) -> Option<u8> {
    let numbers: Option<Vec<u8>> = damages.iter().map(|damage| damage.number).collect();
    let numbers = numbers?;
    let Some(&first) = numbers.iter().min_by_key(|&&number| position(number)) else {
        return Some(DONE);
    };
    let beside = |&&number: &&u8| position(number) == position(first);
    let times = numbers.iter().filter(beside).count();
    let overtaken = first == SHEET_LENGTH && numbers.contains(&COUNT_OUTSIDE);
    // A second damage to the tree may make a node faulty by itself.
    let trees = numbers
        .iter()
        .filter(|&&number| number == NOT_USED_ONCE || number == TOO_DEEP);
    let in_doubt = OF_NODES.contains(&first) && trees.count() > 1;
    (times == 1 && !overtaken && !in_doubt).then_some(first)
}
