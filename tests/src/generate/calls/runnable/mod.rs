//! Sheets made to be run: few fields, levels side by side, tests of fields, loops
//! that end and loops that don't, results near both ends of the range. Some are
//! as deep or as long as a sheet may be.

mod commands;
mod expressions;
mod sizes;

use super::draft::numbered;
use crate::generate::levels::{lattice, rows, small_lattice, Order};
use crate::generate::names::names;
use crate::generate::valid::MOST_FIELDS;
use crate::model::sheet::Sheet;
use crate::random::Random;

/// A sheet that is made to be run.
pub fn sheet(random: &mut Random) -> Sheet {
    let levels = match random.once_in(12) {
        true => lattice(random),
        false => small_lattice(random),
    };
    sheet_of(&levels, random)
}

/// A sheet of these levels that is made to be run.
pub fn sheet_of(levels: &Order, random: &mut Random) -> Sheet {
    let fields = match random.once_in(16) {
        true => random.between(7, MOST_FIELDS),
        false => random.between(1, 6),
    };
    let mut maker = Maker {
        fields,
        constants: (0..random.below(3)).map(|_| value(random)).collect(),
        random,
    };
    let top = maker.whole();
    let constants = maker.constants;
    Sheet {
        levels: rows(levels),
        fields: names(fields, random),
        constants,
        nodes: numbered(&top, random),
    }
}

/// A value that is small, or near an end of the range.
pub fn value(random: &mut Random) -> i32 {
    match random.below(16) {
        0 => random.pick(&[i32::MIN, i32::MAX, i32::MIN + 1, i32::MAX - 1]),
        1 => random.pick(&[46_340, 46_341, -46_341, 65_536, -65_536, 1 << 30, -1 << 30]),
        2 => random.value(),
        3 | 4 => random.between(0, 2000) as i32 - 1000,
        5..8 => 0,
        _ => random.between(0, 14) as i32 - 5,
    }
}

/// What a sheet is made with.
struct Maker<'a> {
    random: &'a mut Random,
    fields: usize,
    constants: Vec<i32>,
}
