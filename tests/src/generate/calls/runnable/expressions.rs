//! Expressions, tests among them. Most stay in range.

use super::{value, Maker};
use crate::generate::calls::draft::*;
use crate::generate::valid::MOST_CONSTANTS;
use crate::model::values::{Operator, OPERATORS};

/// Dividends and divisors of exact quotients. The greatest is a prime, and only the
/// least is a multiple of the least.
const EXACT_AT_AN_END: [(i32, i32); 7] = [
    (i32::MIN, i32::MIN),
    (i32::MIN, 2),
    (i32::MIN, -2),
    (i32::MAX, i32::MAX),
    (i32::MAX, -1),
    (i32::MAX, -i32::MAX),
    (-i32::MAX, i32::MAX),
];

impl Maker<'_> {
    pub(super) fn test(&mut self) -> Draft {
        match self.random.below(16) {
            0..6 => self.comparison(),
            6..9 => field(self.any_field()),
            9 | 10 => not(field(self.any_field())),
            11 | 12 => seal(self.comparison()),
            13 => self.constant(1),
            _ => self.expression(2),
        }
    }

    /// A field, sealed or not, against a small number.
    fn comparison(&mut self) -> Draft {
        let compare = [Operator::Equal, Operator::Less, Operator::AtMost];
        let compare = self.random.pick(&compare);
        let left = field(self.any_field());
        let left = match self.random.once_in(6) {
            true => seal(left),
            false => left,
        };
        let small = self.random.between(0, 8) as i32 - 2;
        operator(compare, left, self.constant(small))
    }

    pub(super) fn expression(&mut self, room: usize) -> Draft {
        if room == 0 || self.random.once_in(4) {
            return self.leaf();
        }
        match self.random.below(12) {
            0 => not(self.expression(room - 1)),
            1 => seal(self.expression(room - 1)),
            _ => self.operator(room - 1),
        }
    }

    /// Any operator; most divisors are not 0.
    fn operator(&mut self, room: usize) -> Draft {
        let any = self.random.pick(&OPERATORS);
        let left = self.expression(room);
        let divides = matches!(any, Operator::Divide | Operator::Remainder);
        let right = match divides && !self.random.once_in(3) {
            true => {
                let divisor = self.random.pick(&[1, -1, 2, -2, 3, -3, 7, -10]);
                self.constant(divisor)
            }
            false => self.expression(room),
        };
        operator(any, left, right)
    }

    pub(super) fn leaf(&mut self) -> Draft {
        match self.random.once_in(2) {
            true => field(self.any_field()),
            false => {
                let value = value(self.random);
                self.constant(value)
            }
        }
    }

    /// The field one more or less.
    pub(super) fn stepped(&mut self, field: usize) -> Draft {
        let any = self.random.pick(&[Operator::Plus, Operator::Minus]);
        self.arithmetic(any, field, 1)
    }

    /// Any operator on an end of the range.
    pub(super) fn at_an_end(&mut self) -> Draft {
        let any = self.random.pick(&OPERATORS);
        let end = self
            .random
            .pick(&[i32::MIN, i32::MAX, i32::MIN + 1, i32::MAX - 1]);
        let other = self.random.pick(&[-1, -1, 0, 1, 2, -2, i32::MIN, i32::MAX]);
        let (end, other) = (self.constant(end), self.constant(other));
        match self.random.once_in(3) {
            true => operator(any, other, end),
            false => operator(any, end, other),
        }
    }

    /// A quotient or remainder with an end of the range on one side or on both.
    pub(super) fn division_at_an_end(&mut self) -> Draft {
        let any = self.random.pick(&[Operator::Divide, Operator::Remainder]);
        let ends = [(i32::MIN, i32::MAX), (i32::MAX, i32::MIN)];
        let (end, other_end) = self.random.pick(&ends);
        let other = self.random.pick(&[3, -3, 7, -10, 1_000, -46_341]);
        let (dividend, divisor) = match self.random.below(8) {
            0..3 => self.random.pick(&EXACT_AT_AN_END),
            3 => (end, other_end),
            4 | 5 => (end, other),
            _ => (other, end),
        };
        operator(any, self.constant(dividend), self.constant(divisor))
    }

    pub(super) fn arithmetic(&mut self, with: Operator, left: usize, right: i32) -> Draft {
        operator(with, field(left), self.constant(right))
    }

    pub(super) fn any_field(&mut self) -> usize {
        self.random.below(self.fields)
    }

    /// A constant of this value, if there is room for it.
    pub(super) fn constant(&mut self, value: i32) -> Draft {
        let known = self.constants.iter().position(|&known| known == value);
        constant(known.unwrap_or_else(|| {
            if self.constants.len() < MOST_CONSTANTS {
                self.constants.push(value);
            }
            self.constants.len() - 1
        }))
    }
}
