//! Runners wrong about values: results at the ends of the range, division,
//! truth, and which side is worked out when.

use super::{in_rules, Faults, WrongRunner};
use crate::model::follow::{Run, Stop};
use crate::model::number::{DIVISOR_ZERO, OUT_OF_RANGE};
use crate::model::rules::Sides;
use crate::model::values::{in_range, operate, quotient, Operator, GREATEST, LEAST};
use Operator::*;

pub fn runners() -> Vec<WrongRunner> {
    let operators = [
        RANGES,
        QUOTIENTS,
        REMAINDERS,
        DIVISIONS,
        COMPARISONS,
        AND_OR,
    ]
    .concat();
    in_rules! {
        crate::model::rules;
        operate: &operators,
        not: NOTS,
        is_true: TRUTHS,
        both_sides: SIDES,
    }
}

type Operate = fn(Operator, i64, i64) -> Result<i64, u8>;

/// The lowest four bytes of an exact result.
fn wrapped(exact: i64) -> i64 {
    i64::from(exact as i32)
}

const RANGES: Faults<Operate> = &[
    ("sums wrap", |operator, left, right| match operator {
        Plus => Ok(wrapped(left + right)),
        _ => operate(operator, left, right),
    }),
    ("differences wrap", |operator, left, right| match operator {
        Minus => Ok(wrapped(left - right)),
        _ => operate(operator, left, right),
    }),
    ("products wrap", |operator, left, right| match operator {
        Times => Ok(wrapped(left * right)),
        _ => operate(operator, left, right),
    }),
    ("quotients wrap", |operator, left, right| match operator {
        Divide if right != 0 => Ok(wrapped(quotient(left, right))),
        _ => operate(operator, left, right),
    }),
    (
        "sums stay at the end of the range",
        |operator, left, right| match operator {
            Plus => Ok((left + right).clamp(LEAST, GREATEST)),
            _ => operate(operator, left, right),
        },
    ),
    (
        "the greatest is out of range",
        |operator, left, right| match operate(operator, left, right) {
            Ok(GREATEST) => Err(OUT_OF_RANGE),
            result => result,
        },
    ),
    (
        "the least is out of range",
        |operator, left, right| match operate(operator, left, right) {
            Ok(LEAST) => Err(OUT_OF_RANGE),
            result => result,
        },
    ),
];

/// Whether the exact quotient is no whole number.
fn is_inexact(left: i64, right: i64) -> bool {
    left % right != 0
}

const QUOTIENTS: Faults<Operate> = &[
    (
        "quotients drop their fraction toward zero",
        |operator, left, right| match operator {
            Divide if right != 0 => in_range(left / right),
            _ => operate(operator, left, right),
        },
    ),
    (
        "quotients by more than 0 drop their fraction toward zero",
        |operator, left, right| match operator {
            Divide if right > 0 => in_range(left / right),
            _ => operate(operator, left, right),
        },
    ),
    (
        "quotients by less than 0 drop their fraction toward zero",
        |operator, left, right| match operator {
            Divide if right < 0 => in_range(left / right),
            _ => operate(operator, left, right),
        },
    ),
    (
        "quotients round up",
        |operator, left, right| match operate(operator, left, right) {
            Ok(down) if operator == Divide && is_inexact(left, right) => Ok(down + 1),
            result => result,
        },
    ),
    (
        "quotients leave no negative remainder",
        |operator, left, right| match operator {
            Divide if right != 0 => in_range(left.div_euclid(right)),
            _ => operate(operator, left, right),
        },
    ),
    (
        "an exact quotient below zero is one less",
        |operator, left, right| match operate(operator, left, right) {
            Ok(exact) if operator == Divide && exact < 0 && !is_inexact(left, right) => {
                in_range(exact - 1)
            }
            result => result,
        },
    ),
    (
        "quotients wrap before they round down",
        |operator, left, right| match operator {
            Divide if left < 0 && right > 0 => Ok(wrapped(left - right + 1) / right),
            Divide if left > 0 && right < 0 => Ok(wrapped(left - right - 1) / right),
            _ => operate(operator, left, right),
        },
    ),
];

const REMAINDERS: Faults<Operate> = &[
    (
        "the remainder takes the dividend's sign",
        |operator, left, right| match operator {
            Remainder if right != 0 => Ok(left % right),
            _ => operate(operator, left, right),
        },
    ),
    (
        "the remainder by more than 0 takes the dividend's sign",
        |operator, left, right| match operator {
            Remainder if right > 0 => Ok(left % right),
            _ => operate(operator, left, right),
        },
    ),
    (
        "the remainder by less than 0 takes the dividend's sign",
        |operator, left, right| match operator {
            Remainder if right < 0 => Ok(left % right),
            _ => operate(operator, left, right),
        },
    ),
    (
        "no remainder is negative",
        |operator, left, right| match operator {
            Remainder if right != 0 => Ok(left.rem_euclid(right)),
            _ => operate(operator, left, right),
        },
    ),
    (
        "the remainder only changes its sign",
        |operator, left, right| match operator {
            Remainder if right != 0 => Ok((left % right).abs() * right.signum()),
            _ => operate(operator, left, right),
        },
    ),
    (
        "nothing left of unlike signs is the divisor",
        |operator, left, right| match operate(operator, left, right) {
            Ok(0) if operator == Remainder && left * right < 0 => Ok(right),
            result => result,
        },
    ),
    (
        "a remainder stops where quotient times divisor is out of range",
        |operator, left, right| match operator {
            Remainder if right != 0 => {
                in_range(quotient(left, right) * right).map(|product| left - product)
            }
            _ => operate(operator, left, right),
        },
    ),
];

/// What stops, and with which number.
const DIVISIONS: Faults<Operate> = &[
    (
        "the least's remainder by -1 stops",
        |operator, left, right| match (operator, left, right) {
            (Remainder, LEAST, -1) => Err(OUT_OF_RANGE),
            _ => operate(operator, left, right),
        },
    ),
    ("a quotient by 0 is 0", |operator, left, right| {
        match (operator, right) {
            (Divide, 0) => Ok(0),
            _ => operate(operator, left, right),
        }
    }),
    (
        "a remainder by 0 is the dividend",
        |operator, left, right| match (operator, right) {
            (Remainder, 0) => Ok(left),
            _ => operate(operator, left, right),
        },
    ),
    ("13 for divisor 0", |operator, left, right| {
        operate(operator, left, right).map_err(|_| OUT_OF_RANGE)
    }),
    ("14 for the least by -1", |operator, left, right| {
        match (operator, left, right) {
            (Divide, LEAST, -1) => Err(DIVISOR_ZERO),
            _ => operate(operator, left, right),
        }
    }),
];

const COMPARISONS: Faults<Operate> = &[
    ("less for at most", |operator, left, right| match operator {
        AtMost => operate(Less, left, right),
        _ => operate(operator, left, right),
    }),
    ("at most for less", |operator, left, right| match operator {
        Less => operate(AtMost, left, right),
        _ => operate(operator, left, right),
    }),
    (
        "less without signs",
        |operator, left, right| match operator {
            Less => Ok(i64::from((left as u32) < right as u32)),
            _ => operate(operator, left, right),
        },
    ),
    (
        "at most by the difference's sign",
        |operator, left, right| match operator {
            AtMost => Ok(i64::from(wrapped(left - right) <= 0)),
            _ => operate(operator, left, right),
        },
    ),
    ("equal gives -1", |operator, left, right| match operator {
        Equal => Ok(-i64::from(left == right)),
        _ => operate(operator, left, right),
    }),
];

const AND_OR: Faults<Operate> = &[
    ("and by bits", |operator, left, right| match operator {
        And => Ok(left & right),
        _ => operate(operator, left, right),
    }),
    ("or by bits", |operator, left, right| match operator {
        Or => Ok(left | right),
        _ => operate(operator, left, right),
    }),
    (
        "and gives its right side",
        |operator, left, right| match operator {
            And if left != 0 => Ok(right),
            _ => operate(operator, left, right),
        },
    ),
];

const NOTS: Faults<fn(i64) -> i64> = &[
    ("not by bits", |value| !value),
    ("not of a truth other than 1", |value| i64::from(value != 1)),
    ("not keeps the value", |value| value),
];

const TRUTHS: Faults<fn(i64) -> bool> = &[
    ("only 1 is a true test", |value| value == 1),
    ("only numbers above 0 are a true test", |value| value > 0),
    ("only the low byte of a test", |value| value as u8 != 0),
    ("tests the other way round", |value| value == 0),
];

type BothSides = fn(&Run, Operator, usize, usize) -> Result<Sides, Stop>;

const SIDES: Faults<BothSides> = &[
    ("right is worked out before left", |run, _, left, right| {
        let right = run.expression(right)?;
        Ok((run.expression(left)?, right))
    }),
    ("left and right exchanged", |run, _, left, right| {
        let left = run.expression(left)?;
        Ok((run.expression(right)?, left))
    }),
    ("and stops early", |run, operator, left, right| {
        let left = run.expression(left)?;
        match operator {
            And if left.value == 0 => Ok((left, left)),
            _ => Ok((left, run.expression(right)?)),
        }
    }),
    ("or stops early", |run, operator, left, right| {
        let left = run.expression(left)?;
        match operator {
            Or if left.value != 0 => Ok((left, left)),
            _ => Ok((left, run.expression(right)?)),
        }
    }),
    (
        "a stop right of a false and is not told",
        |run, operator, left, right| {
            let left = run.expression(left)?;
            match operator {
                And if left.value == 0 => Ok((left, run.expression(right).unwrap_or(left))),
                _ => Ok((left, run.expression(right)?)),
            }
        },
    ),
];
