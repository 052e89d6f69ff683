//! Start stores: which levels the fields have goes by a habit, so that contexts
//! often lie below them, and often don't.

use super::runnable::value;
use crate::model::marks::Mark;
use crate::model::sheet::Sheet;
use crate::model::store::{Marked, Store};
use crate::random::Random;

/// A store that fits the sheet; partial marks only where they are wanted.
pub fn store(sheet: &Sheet, partial: bool, random: &mut Random) -> Store {
    let unusual = random.pick(&[1, 2, 4, 100]);
    let partial_of_8 = match partial {
        true => random.pick(&[0, 0, 1, 4]),
        false => 0,
    };
    by_habit(sheet, unusual, partial_of_8, random)
}

/// The same with any levels, and half of the fields partial.
pub fn mixed(sheet: &Sheet, random: &mut Random) -> Store {
    by_habit(sheet, 1, 4, random)
}

/// One field in so many has another level than the usual one.
fn by_habit(sheet: &Sheet, unusual: usize, partial_of_8: usize, random: &mut Random) -> Store {
    let levels = sheet.levels.count();
    let usual = random.below(levels);
    let mut marked = |_| Marked {
        value: i64::from(value(random)),
        mark: Mark {
            level: match random.once_in(unusual) {
                true => random.below(levels),
                false => usual,
            },
            partial: random.below(8) < partial_of_8,
        },
    };
    Store {
        fields: sheet.fields.iter().map(&mut marked).collect(),
    }
}
