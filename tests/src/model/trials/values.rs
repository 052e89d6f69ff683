//! Trials of values: the ten operators and "not" at both ends of the range, and
//! which stop is told.

use super::trees::*;
use super::*;

/// What q := expression leaves in q, or the number and place of its stop.
fn worked_out(expression: Tree) -> Result<i32, (u8, u16)> {
    let sheet = Parts::of(&[1], 1, assign(0, expression));
    let Outcome { answer, written } = run(&call(&sheet, &[whole(0, 77)], STRICT, 1));
    assert_eq!(answer.units, 1);
    match answer.number {
        DONE => Ok(i32::from_le_bytes(written[3..].try_into().expect("4"))),
        number => Err((number, answer.place)),
    }
}

/// The operator stands behind its two constants, so its node number is 2.
const RANGE: Result<i32, (u8, u16)> = Err((OUT_OF_RANGE, 2));
const ZERO: Result<i32, (u8, u16)> = Err((DIVISOR_ZERO, 2));

#[track_caller]
fn gives(op: u8, left: i32, right: i32, result: Result<i32, (u8, u16)>) {
    let expression = operator(op, constant(left), constant(right));
    assert_eq!(worked_out(expression), result, "{left} {op} {right}");
}

const LEAST: i32 = -2_147_483_648;
const GREATEST: i32 = 2_147_483_647;

#[test]
fn the_documents_values() {
    gives(PLUS, GREATEST, 1, RANGE);
    gives(DIVIDE, LEAST, -1, RANGE);
    gives(DIVIDE, -7, 2, Ok(-4));
    gives(REMAINDER, -7, 2, Ok(1));
    gives(REMAINDER, 7, -2, Ok(-1));
    gives(DIVIDE, 5, 0, ZERO);
}

#[test]
fn sums_differences_and_products() {
    gives(PLUS, GREATEST, LEAST, Ok(-1));
    gives(PLUS, GREATEST - 1, 1, Ok(GREATEST));
    gives(PLUS, LEAST, -1, RANGE);
    gives(PLUS, LEAST, LEAST, RANGE);
    gives(MINUS, LEAST, 1, RANGE);
    gives(MINUS, 0, LEAST, RANGE);
    gives(MINUS, -1, LEAST, Ok(GREATEST));
    gives(MINUS, GREATEST, -1, RANGE);
    gives(TIMES, LEAST, -1, RANGE);
    gives(TIMES, LEAST, 1, Ok(LEAST));
    gives(TIMES, LEAST, LEAST, RANGE);
    gives(TIMES, 65_536, -32_768, Ok(LEAST));
    gives(TIMES, 65_536, 32_768, RANGE);
    gives(TIMES, 46_341, 46_341, RANGE);
    gives(TIMES, 65_536, 65_536, RANGE);
}

#[track_caller]
fn divides(left: i32, right: i32, quotient: i32, remainder: i32) {
    gives(DIVIDE, left, right, Ok(quotient));
    gives(REMAINDER, left, right, Ok(remainder));
}

#[test]
fn quotients_and_remainders() {
    for (left, right, quotient, remainder) in [
        (7, 2, 3, 1),
        (7, -2, -4, -1),
        (-7, 2, -4, 1),
        (-7, -2, 3, -1),
        (8, 3, 2, 2),
        (8, -3, -3, -1),
        (-8, 3, -3, 1),
        (-8, -3, 2, -2),
        (1, 2, 0, 1),
        (1, -2, -1, -1),
        (-1, 2, -1, 1),
        (-1, -2, 0, -1),
        (6, 2, 3, 0),
        (6, -2, -3, 0),
        (-6, 2, -3, 0),
        (-6, -2, 3, 0),
        (0, 5, 0, 0),
        (0, -5, 0, 0),
    ] {
        divides(left, right, quotient, remainder);
    }
    for left in [0, 5, -5, LEAST, GREATEST] {
        gives(DIVIDE, left, 0, ZERO);
        gives(REMAINDER, left, 0, ZERO);
    }
}

#[test]
fn quotients_and_remainders_at_the_ends() {
    for (left, right, quotient, remainder) in [
        (LEAST, 1, LEAST, 0),
        (LEAST, 2, -1_073_741_824, 0),
        (LEAST, -2, 1_073_741_824, 0),
        (LEAST, 3, -715_827_883, 1),
        (LEAST, -3, 715_827_882, -2),
        (LEAST, GREATEST, -2, 2_147_483_646),
        (LEAST, LEAST, 1, 0),
        (GREATEST, 1, GREATEST, 0),
        (GREATEST, -1, -2_147_483_647, 0),
        (GREATEST, 2, 1_073_741_823, 1),
        (GREATEST, -2, -1_073_741_824, -1),
        (GREATEST, GREATEST, 1, 0),
        (GREATEST, LEAST, -1, -1),
        (1, LEAST, -1, -2_147_483_647),
        (0, LEAST, 0, 0),
        (-1, LEAST, 0, -1),
        (1, GREATEST, 0, 1),
        (0, GREATEST, 0, 0),
        (-1, GREATEST, -1, 2_147_483_646),
        (-2_147_483_647, GREATEST, -1, 0),
    ] {
        divides(left, right, quotient, remainder);
    }
    // The exact remainder is 0, although the quotient is out of range.
    gives(DIVIDE, LEAST, -1, RANGE);
    gives(REMAINDER, LEAST, -1, Ok(0));
}

#[test]
fn comparisons_give_1_or_0() {
    for (left, right) in [(1, 2), (LEAST, GREATEST), (-1, 0), (LEAST, -GREATEST)] {
        for (op, results) in [(EQUAL, [0, 0, 1]), (LESS, [1, 0, 0]), (AT_MOST, [1, 0, 1])] {
            gives(op, left, right, Ok(results[0]));
            gives(op, right, left, Ok(results[1]));
            gives(op, left, left, Ok(results[2]));
        }
    }
}

#[test]
fn any_number_but_0_is_true() {
    for truth in [1, -1, 2, 256, LEAST, GREATEST] {
        gives(AND, truth, 2, Ok(1));
        gives(AND, truth, 0, Ok(0));
        gives(AND, 0, truth, Ok(0));
        gives(OR, truth, 0, Ok(1));
        gives(OR, 0, truth, Ok(1));
        assert_eq!(worked_out(not(constant(truth))), Ok(0));
    }
    gives(AND, 4, 8, Ok(1));
    gives(OR, 4, 8, Ok(1));
    gives(AND, 0, 0, Ok(0));
    gives(OR, 0, 0, Ok(0));
    assert_eq!(worked_out(not(constant(0))), Ok(1));
}

/// Nodes 0 to 2 where it stands first, 3 to 5 where it stands second.
fn five_over_zero() -> Tree {
    operator(DIVIDE, constant(5), constant(0))
}

fn too_great() -> Tree {
    operator(PLUS, constant(GREATEST), constant(1))
}

#[test]
fn both_sides_are_worked_out_and_the_first_stop_is_told() {
    for op in PLUS..=OR {
        let left_first = operator(op, too_great(), five_over_zero());
        assert_eq!(worked_out(left_first), Err((OUT_OF_RANGE, 2)));
        let left_first = operator(op, five_over_zero(), too_great());
        assert_eq!(worked_out(left_first), Err((DIVISOR_ZERO, 2)));
        let right = operator(op, constant(0), five_over_zero());
        assert_eq!(worked_out(right), Err((DIVISOR_ZERO, 3)));
        let right = operator(op, constant(1), too_great());
        assert_eq!(worked_out(right), Err((OUT_OF_RANGE, 3)));
    }
    assert_eq!(worked_out(not(too_great())), Err((OUT_OF_RANGE, 2)));
    assert_eq!(worked_out(seal(five_over_zero())), Err((DIVISOR_ZERO, 2)));
}

#[test]
fn seal_keeps_the_value() {
    assert_eq!(worked_out(seal(constant(LEAST))), Ok(LEAST));
}
