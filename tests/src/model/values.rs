//! Values: the numbers from the least to the greatest, the ten operators and
//! "not". A result is worked out in 64 bits, where it is exact, and then held
//! against the range.

use super::answer::number::{DIVISOR_ZERO, OUT_OF_RANGE};

/// The least number.
pub const LEAST: i64 = -2_147_483_648;
/// The greatest number.
pub const GREATEST: i64 = 2_147_483_647;

/// The ten operators.
#[derive(Clone, Copy, Debug, PartialEq, Eq)]
pub enum Operator {
    Plus,
    Minus,
    Times,
    Divide,
    Remainder,
    Equal,
    Less,
    AtMost,
    And,
    Or,
}

use Operator::*;

/// The operators by number.
pub const OPERATORS: [Operator; 10] = [
    Plus, Minus, Times, Divide, Remainder, Equal, Less, AtMost, And, Or,
];

/// What an operator makes of two values, or the number that it stops with.
pub fn operate(operator: Operator, left: i64, right: i64) -> Result<i64, u8> {
    match operator {
        Plus => in_range(left + right),
        Minus => in_range(left - right),
        Times => in_range(left * right),
        Divide => in_range(quotient(left, divisor(right)?)),
        Remainder => in_range(remainder(left, divisor(right)?)),
        Equal => Ok(truth(left == right)),
        Less => Ok(truth(left < right)),
        AtMost => Ok(truth(left <= right)),
        And => Ok(truth(is_true(left) && is_true(right))),
        Or => Ok(truth(is_true(left) || is_true(right))),
    }
}

/// "Not" gives 1 or 0.
pub fn not(value: i64) -> i64 {
    truth(!is_true(value))
}

/// Any number but 0 is true.
pub fn is_true(value: i64) -> bool {
    value != 0
}

fn truth(holds: bool) -> i64 {
    i64::from(holds)
}

/// Row 13: an exact result outside stops the run.
pub fn in_range(result: i64) -> Result<i64, u8> {
    match (LEAST..=GREATEST).contains(&result) {
        true => Ok(result),
        false => Err(OUT_OF_RANGE),
    }
}

/// Row 14: divisor 0.
fn divisor(right: i64) -> Result<i64, u8> {
    match right {
        0 => Err(DIVISOR_ZERO),
        _ => Ok(right),
    }
}

/// The greatest whole number not above the exact quotient. Rust's `/` drops the
/// fraction toward zero, so it is less than 1 away from the exact quotient.
pub fn quotient(dividend: i64, divisor: i64) -> i64 {
    let near = dividend / divisor;
    let not_above = (near - 1..=near + 1).filter(|&whole| is_not_above(whole, dividend, divisor));
    not_above.max().expect("one less is never above")
}

/// Whether a whole number is not above the exact quotient. Both are multiplied by
/// the divisor; one below zero turns their order round.
fn is_not_above(whole: i64, dividend: i64, divisor: i64) -> bool {
    match divisor < 0 {
        true => whole * divisor >= dividend,
        false => whole * divisor <= dividend,
    }
}

/// The one number that is a remainder. Rust's `%` takes the dividend's sign and is
/// otherwise as a remainder is, so the divisor is all that it may be away.
fn remainder(dividend: i64, divisor: i64) -> i64 {
    let near = dividend % divisor;
    let mut nearest = [near - divisor, near, near + divisor].into_iter();
    let remainder = nearest.find(|&rest| is_remainder(rest, dividend, divisor));
    remainder.expect("one of them has the divisor's sign")
}

/// Whether a number has the divisor's sign or is 0, is smaller in size than the
/// divisor, and makes the dividend without it a multiple of the divisor.
fn is_remainder(rest: i64, dividend: i64, divisor: i64) -> bool {
    let has_its_sign = rest == 0 || (rest < 0) == (divisor < 0);
    let is_smaller = rest.abs() < divisor.abs();
    let leaves_a_multiple = (dividend - rest) % divisor == 0;
    has_its_sign && is_smaller && leaves_a_multiple
}

#[cfg(test)]
mod tests {
    use super::*;

    /// Both ends, and all that is small.
    fn some() -> impl Iterator<Item = i64> + Clone {
        let ends = [LEAST, LEAST + 1, GREATEST - 1, GREATEST];
        ends.into_iter().chain(-12..=12)
    }

    fn divisions() -> impl Iterator<Item = (i64, i64)> {
        let divisors = some().filter(|&divisor| divisor != 0);
        some().flat_map(move |dividend| divisors.clone().map(move |divisor| (dividend, divisor)))
    }

    #[test]
    fn one_number_is_the_remainder() {
        for (dividend, divisor) in divisions().filter(|(_, divisor)| divisor.abs() <= 12) {
            let all = (-12..=12).filter(|&rest| is_remainder(rest, dividend, divisor));
            let all: Vec<i64> = all.collect();
            assert_eq!(
                all,
                [remainder(dividend, divisor)],
                "{dividend} % {divisor}"
            );
        }
    }

    #[test]
    fn quotient_and_remainder_make_the_dividend() {
        for (dividend, divisor) in divisions() {
            let multiple = quotient(dividend, divisor) * divisor;
            let made = multiple + remainder(dividend, divisor);
            assert_eq!(made, dividend, "by {divisor}");
        }
    }
}
