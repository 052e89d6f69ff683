//! Marks: a level, whole or partial, and the byte that a store has for it.

use super::levels::Levels;

/// The mark of a value.
#[derive(Clone, Copy, Debug, PartialEq, Eq)]
pub struct Mark {
    pub level: usize,
    pub partial: bool,
}

/// What a mark byte has more when it is partial.
pub const PARTIAL: u8 = 16;

/// The highest mark byte.
pub const MOST_MARK: u8 = 2 * PARTIAL - 1;

/// The level of a mark byte.
pub fn level_of(byte: u8) -> usize {
    usize::from(byte % PARTIAL)
}

impl Mark {
    pub fn whole(level: usize) -> Mark {
        Mark {
            level,
            partial: false,
        }
    }

    pub fn partial(level: usize) -> Mark {
        Mark {
            level,
            partial: true,
        }
    }

    /// The mark is the level, plus 16 when partial; none is above 31.
    pub fn read(byte: u8) -> Option<Mark> {
        (byte <= MOST_MARK).then(|| Mark {
            level: level_of(byte),
            partial: byte >= PARTIAL,
        })
    }

    pub fn byte(self) -> u8 {
        self.level as u8 + PARTIAL * u8::from(self.partial)
    }

    /// The join of both levels, partial if either is.
    pub fn join(self, other: Mark, levels: &Levels) -> Mark {
        Mark {
            level: join(levels, self.level, other.level),
            partial: self.partial || other.partial,
        }
    }
}

/// The join in levels that row 3 has passed.
pub fn join(levels: &Levels, i: usize, j: usize) -> usize {
    levels.join(i, j).expect("every two levels have a join")
}

/// The meet in levels that row 3 has passed.
pub fn meet(levels: &Levels, i: usize, j: usize) -> usize {
    levels.meet(i, j).expect("every two levels have a meet")
}
