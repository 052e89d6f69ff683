//! What comes back from a call: a number of the document's table, a place and
//! the units, and how the three stand in the C archive's answer word.

/// The numbers of the table "What comes back, in order of checks", with those that
/// document 02's request One puts in the position of 5, which is never given.
pub mod number {
    use std::ops::RangeInclusive;

    /// Success.
    pub const DONE: u8 = 0;
    /// Row 1: sheet ends too soon or has bytes left.
    pub const SHEET_LENGTH: u8 = 1;
    /// Row 2: a count outside its limits.
    pub const COUNT_OUTSIDE: u8 = 2;
    /// Row 3: levels not as above.
    pub const LEVELS_WRONG: u8 = 3;
    /// Row 4: a bad or repeated name.
    pub const NAME_WRONG: u8 = 4;
    /// Row 6: a node not used once, or the last not a command.
    pub const NOT_USED_ONCE: u8 = 6;
    /// Row 7: depth over 64.
    pub const TOO_DEEP: u8 = 7;
    /// Row 8: store length or count doesn't fit the sheet.
    pub const STORE_MISFIT: u8 = 8;
    /// Row 9: a mark above 31 or its level unknown; in a strict run also a partial mark.
    pub const MARK_WRONG: u8 = 9;
    /// Row 10: mode not 0 (strict) or 1 (permissive), or fuel over 1,000,000.
    pub const MODE_OR_FUEL: u8 = 10;
    /// Row 11: output shorter than the store or answer.
    pub const OUT_SHORT: u8 = 11;
    /// Row 12: fuel used up.
    pub const FUEL_SPENT: u8 = 12;
    /// Row 13: result out of range.
    pub const OUT_OF_RANGE: u8 = 13;
    /// Row 14: divisor 0.
    pub const DIVISOR_ZERO: u8 = 14;
    /// Row 15: strict: context not at or below the field's level.
    pub const NOT_BELOW: u8 = 15;
    /// Row 16: permissive: partial test.
    pub const PARTIAL_TEST: u8 = 16;
    /// Row 17: hand-out: reader unknown, request's size, count or a field number wrong.
    pub const READER_OR_REQUEST: u8 = 17;
    /// Row 18: hand-out: partial field at or below the reader asked.
    pub const PARTIAL_ASKED: u8 = 18;
    /// Row 19: unknown kind or operator.
    pub const NODE_UNKNOWN: u8 = 19;
    /// Row 20: unused place, or operator byte in a kind without one, not 0.
    pub const NODE_UNUSED: u8 = 20;
    /// Row 21: child or index number out of range or not lower.
    pub const NODE_RANGE: u8 = 21;
    /// Row 22: child of the wrong sort.
    pub const NODE_SORT: u8 = 22;

    /// What is wrong with a node, in the order within a node.
    pub const OF_NODES: &[u8] = &[NODE_UNKNOWN, NODE_UNUSED, NODE_RANGE, NODE_SORT];

    /// Rows 12 to 16 come as the run meets them.
    pub const STOPS: RangeInclusive<u8> = FUEL_SPENT..=PARTIAL_TEST;
}

/// The answer of a call.
#[derive(Clone, Copy, Debug, PartialEq, Eq)]
pub struct Answer {
    pub number: u8,
    pub place: u16,
    pub units: u32,
}

impl Answer {
    /// The answer with this number whose place and units are 0.
    pub fn plain(number: u8) -> Answer {
        Answer {
            number,
            place: 0,
            units: 0,
        }
    }

    /// The answer with this number whose place is this node's number; its units are 0.
    pub fn at_node(number: u8, node: usize) -> Answer {
        Answer {
            place: u16::try_from(node).expect("a node's number has two bytes"),
            ..Answer::plain(number)
        }
    }

    /// Number in bits 0 to 7, place in bits 8 to 23, units in bits 32 to 63.
    pub fn word(self) -> u64 {
        u64::from(self.number) | u64::from(self.place) << 8 | u64::from(self.units) << 32
    }
}
