//! The levels and row 3 of the table: the rows are a partial order in which
//! every two levels have a join and a meet, with no bit at or past the count.
//! Each law is tried on all levels, pairs or triples, as its definition says.

use super::sheet::Sheet;

/// The rows of the levels section.
#[derive(Clone, Debug, PartialEq, Eq)]
pub struct Levels {
    pub rows: Vec<u16>,
}

/// Bits in a row.
const ROW_BITS: usize = 16;

/// A law by its name.
pub type Law = (&'static str, fn(&Levels) -> bool);

/// What row 3 asks of the levels.
pub const LAWS: [Law; 6] = [
    ("no bit at or past the count", no_bit_past_the_count),
    ("reflexive", reflexive),
    ("antisymmetric", antisymmetric),
    ("transitive", transitive),
    ("every two have a join", every_two_have_a_join),
    ("every two have a meet", every_two_have_a_meet),
];

/// Row 3: levels not as above.
pub fn levels_are_right(sheet: &Sheet) -> bool {
    LAWS.iter().all(|(_, law)| law(&sheet.levels))
}

fn no_bit_past_the_count(levels: &Levels) -> bool {
    levels
        .each()
        .all(|i| (levels.count()..ROW_BITS).all(|j| !levels.at_or_below(i, j)))
}

fn reflexive(levels: &Levels) -> bool {
    levels.each().all(|i| levels.at_or_below(i, i))
}

fn antisymmetric(levels: &Levels) -> bool {
    every_two(levels, |i, j| {
        i == j || !(levels.at_or_below(i, j) && levels.at_or_below(j, i))
    })
}

fn transitive(levels: &Levels) -> bool {
    every_two(levels, |i, j| {
        levels.each().all(|k| {
            let chained = levels.at_or_below(i, j) && levels.at_or_below(j, k);
            !chained || levels.at_or_below(i, k)
        })
    })
}

fn every_two_have_a_join(levels: &Levels) -> bool {
    every_two(levels, |i, j| levels.join(i, j).is_some())
}

fn every_two_have_a_meet(levels: &Levels) -> bool {
    every_two(levels, |i, j| levels.meet(i, j).is_some())
}

fn every_two(levels: &Levels, holds: impl Fn(usize, usize) -> bool) -> bool {
    levels.each().all(|i| levels.each().all(|j| holds(i, j)))
}

impl Levels {
    pub fn count(&self) -> usize {
        self.rows.len()
    }

    /// All levels, from 0.
    fn each(&self) -> std::ops::Range<usize> {
        0..self.count()
    }

    /// Bit j of row i is set when level i lies at or below level j.
    pub fn at_or_below(&self, i: usize, j: usize) -> bool {
        self.rows[i] >> j & 1 == 1
    }

    /// BOT, the lowest level.
    pub fn bottom(&self) -> usize {
        let lowest = |&low: &usize| self.each().all(|level| self.at_or_below(low, level));
        self.each()
            .find(lowest)
            .expect("a lattice has a lowest level")
    }

    /// TOP, the highest level.
    pub fn top(&self) -> usize {
        let highest = |&high: &usize| self.each().all(|level| self.at_or_below(level, high));
        self.each()
            .find(highest)
            .expect("a lattice has a highest level")
    }

    fn is_upper_bound(&self, bound: usize, i: usize, j: usize) -> bool {
        self.at_or_below(i, bound) && self.at_or_below(j, bound)
    }

    fn is_lower_bound(&self, bound: usize, i: usize, j: usize) -> bool {
        self.at_or_below(bound, i) && self.at_or_below(bound, j)
    }

    /// The least upper bound of two levels.
    pub fn join(&self, i: usize, j: usize) -> Option<usize> {
        let mut bounds = self.each().filter(|&k| self.is_upper_bound(k, i, j));
        bounds.find(|&least| {
            self.each()
                .filter(|&k| self.is_upper_bound(k, i, j))
                .all(|k| self.at_or_below(least, k))
        })
    }

    /// The greatest lower bound of two levels.
    pub fn meet(&self, i: usize, j: usize) -> Option<usize> {
        let mut bounds = self.each().filter(|&k| self.is_lower_bound(k, i, j));
        bounds.find(|&greatest| {
            self.each()
                .filter(|&k| self.is_lower_bound(k, i, j))
                .all(|k| self.at_or_below(k, greatest))
        })
    }
}
