//! Which divisions the compared runs have carried out: by the signs of dividend and
//! divisor and at both ends of the range, exact and not.

use crate::model::values::{Operator, GREATEST, LEAST};
use std::cell::Cell;

/// What a dividend or divisor is.
type Side = (&'static str, fn(i64) -> bool);

const BELOW_0: Side = ("below 0", |value| value < 0);
const ABOVE_0: Side = ("above 0", |value| value > 0);
const THE_LEAST: Side = ("the least", |value| value == LEAST);
const THE_GREATEST: Side = ("the greatest", |value| value == GREATEST);

/// Whether the quotient is a whole number.
type Fit = (&'static str, fn(i64, i64) -> bool);

const EXACT: Fit = ("exact", |dividend, divisor| dividend % divisor == 0);
const NOT_EXACT: Fit = ("not exact", |dividend, divisor| dividend % divisor != 0);

/// A kind of division: the dividend, the divisor and the quotient.
#[derive(Clone, Copy)]
struct Kind(Side, Side, Fit);

/// All that there are: no number above 0 is a multiple of the least, neither end
/// is one of the other, and each is one of itself.
const KINDS: [Kind; 27] = [
    Kind(BELOW_0, BELOW_0, EXACT),
    Kind(BELOW_0, BELOW_0, NOT_EXACT),
    Kind(BELOW_0, ABOVE_0, EXACT),
    Kind(BELOW_0, ABOVE_0, NOT_EXACT),
    Kind(ABOVE_0, BELOW_0, EXACT),
    Kind(ABOVE_0, BELOW_0, NOT_EXACT),
    Kind(ABOVE_0, ABOVE_0, EXACT),
    Kind(ABOVE_0, ABOVE_0, NOT_EXACT),
    Kind(THE_LEAST, BELOW_0, EXACT),
    Kind(THE_LEAST, BELOW_0, NOT_EXACT),
    Kind(THE_LEAST, ABOVE_0, EXACT),
    Kind(THE_LEAST, ABOVE_0, NOT_EXACT),
    Kind(THE_GREATEST, BELOW_0, EXACT),
    Kind(THE_GREATEST, BELOW_0, NOT_EXACT),
    Kind(THE_GREATEST, ABOVE_0, EXACT),
    Kind(THE_GREATEST, ABOVE_0, NOT_EXACT),
    Kind(BELOW_0, THE_LEAST, EXACT),
    Kind(BELOW_0, THE_LEAST, NOT_EXACT),
    Kind(ABOVE_0, THE_LEAST, NOT_EXACT),
    Kind(BELOW_0, THE_GREATEST, EXACT),
    Kind(BELOW_0, THE_GREATEST, NOT_EXACT),
    Kind(ABOVE_0, THE_GREATEST, EXACT),
    Kind(ABOVE_0, THE_GREATEST, NOT_EXACT),
    Kind(THE_LEAST, THE_LEAST, EXACT),
    Kind(THE_LEAST, THE_GREATEST, NOT_EXACT),
    Kind(THE_GREATEST, THE_LEAST, NOT_EXACT),
    Kind(THE_GREATEST, THE_GREATEST, EXACT),
];

impl Kind {
    fn name(&self) -> String {
        let Kind((dividend, _), (divisor, _), (fit, _)) = self;
        format!("{dividend} by {divisor}, {fit}")
    }

    fn holds(&self, left: i64, right: i64) -> bool {
        let Kind((_, dividend), (_, divisor), (_, fit)) = self;
        dividend(left) && divisor(right) && fit(left, right)
    }
}

/// Which kinds of division one run has carried out, for / and for %.
#[derive(Default)]
pub struct Divided {
    came: [[Cell<bool>; 2]; KINDS.len()],
}

impl Divided {
    /// Sees an operator that the run has worked out.
    pub fn see(&self, operator: Operator, left: i64, right: i64) {
        let which = match operator {
            Operator::Divide => 0,
            Operator::Remainder => 1,
            _ => return,
        };
        for (kind, came) in KINDS.iter().zip(&self.came) {
            if kind.holds(left, right) {
                came[which].set(true);
            }
        }
    }
}

/// In how many runs each kind of division came, for / and for %. A loop may divide
/// a million times, so divisions of one kind count once a run.
#[derive(Clone, Debug, Default)]
pub struct Divisions {
    times: [[u64; 2]; KINDS.len()],
}

impl Divisions {
    /// Counts a run.
    pub fn count(&mut self, divided: &Divided) {
        let came = divided.came.as_flattened();
        for (times, came) in self.times.as_flattened_mut().iter_mut().zip(came) {
            *times += u64::from(came.get());
        }
    }

    /// In how many runs each kind came, by its name.
    pub fn each(&self) -> impl Iterator<Item = (String, [u64; 2])> + '_ {
        KINDS.iter().map(Kind::name).zip(self.times)
    }
}

#[cfg(test)]
mod tests {
    use super::*;
    use std::collections::BTreeSet;
    use Operator::*;

    /// The kinds of a run that has worked this out, once for / and once for %.
    fn kinds(worked_out: &[(Operator, i64, i64)]) -> [Vec<String>; 2] {
        let divided = Divided::default();
        for &(operator, left, right) in worked_out {
            divided.see(operator, left, right);
        }
        let mut divisions = Divisions::default();
        divisions.count(&divided);
        [0, 1].map(|which| {
            let came = divisions.each().filter(|(_, times)| times[which] == 1);
            came.map(|(kind, _)| kind).collect()
        })
    }

    #[test]
    fn a_division_is_of_each_kind_that_it_fits() {
        let [quotient, remainder] = kinds(&[(Divide, -7, 2), (Times, 7, 2), (Divide, -9, 2)]);
        assert_eq!(quotient, ["below 0 by above 0, not exact"]);
        assert!(remainder.is_empty());
        let [quotient, remainder] = kinds(&[(Divide, 0, 2), (Remainder, LEAST, LEAST)]);
        assert!(quotient.is_empty());
        assert_eq!(
            remainder,
            [
                "below 0 by below 0, exact",
                "the least by below 0, exact",
                "below 0 by the least, exact",
                "the least by the least, exact",
            ]
        );
    }

    #[test]
    fn the_kinds_are_all_that_there_are() {
        let values = [LEAST, -GREATEST, -3, -2, -1, 1, 2, 3, GREATEST];
        let sides = [BELOW_0, ABOVE_0, THE_LEAST, THE_GREATEST];
        let mut there = Vec::new();
        for dividend in sides {
            for divisor in sides {
                there.extend([EXACT, NOT_EXACT].map(|fit| Kind(dividend, divisor, fit)));
            }
        }
        there.retain(|kind| {
            let mut dividends = values.iter();
            dividends.any(|&left| values.iter().any(|&right| kind.holds(left, right)))
        });
        let names = |kinds: &[Kind]| -> BTreeSet<String> { kinds.iter().map(Kind::name).collect() };
        assert_eq!(names(&there), names(&KINDS));
    }
}
