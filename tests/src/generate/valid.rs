//! Valid sheets, valid by the way they are made. Counts and depth stand at
//! their limits often.

use super::levels::{lattice, rows};
use super::names::names;
use super::tree::{tree, Plan};
use crate::model::nodes::Sort;
use crate::model::sheet::Sheet;
use crate::random::Random;

pub const MOST_FIELDS: usize = 64;
pub const MOST_CONSTANTS: usize = 256;
pub const MOST_NODES: usize = 1024;
pub const MOST_DEPTH: usize = 64;

/// A random valid sheet.
pub fn sheet(random: &mut Random) -> Sheet {
    let fields = often_most(MOST_FIELDS, random);
    let constants = often_most(MOST_CONSTANTS + 1, random) - 1;
    let nodes = often_most(MOST_NODES, random);
    let plan = plan(nodes, fields, constants, random);
    Sheet {
        levels: rows(&lattice(random)),
        fields: names(fields, random),
        constants: (0..constants).map(|_| constant(random)).collect(),
        nodes: tree(&plan, random),
    }
}

/// A plan within the limits for this many nodes.
pub fn plan(nodes: usize, fields: usize, constants: usize, random: &mut Random) -> Plan {
    let most_depth = match random.once_in(2) {
        true => MOST_DEPTH,
        false => random.between(2, MOST_DEPTH),
    };
    let deepest = most_depth.min(nodes);
    Plan {
        last: Sort::Command,
        nodes,
        depth: match random.once_in(2) {
            true => deepest,
            false => random.between(1, deepest),
        },
        most_depth,
        fields,
        constants,
    }
}

fn often_most(most: usize, random: &mut Random) -> usize {
    match random.once_in(16) {
        true => most,
        false => random.spread(most),
    }
}

fn constant(random: &mut Random) -> i32 {
    match random.below(4) {
        0 => random.pick(&[i32::MIN, i32::MAX, 0, -1]),
        1 => random.below(10) as i32,
        _ => random.word() as i32,
    }
}
