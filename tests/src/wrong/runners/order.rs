//! Runners that ask the right questions in the wrong order.

use super::WrongRunner;
use crate::model::number::*;
use crate::model::rules::{Rules, DOCUMENT};
use crate::model::run::{run_by, Mode};
use crate::model::sheet::Sheet;
use crate::model::store::entries;
use crate::model::{run, Answer, Call, Outcome};
use crate::wrong::calls::{rows_exchanged, rows_of_load, Faults, Making, Row};

pub fn runners() -> Vec<WrongRunner> {
    let mut runners = rows_exchanged(&rows());
    runners.extend(LATE.iter().copied().map(WrongRunner::making));
    runners
}

/// The rows in the order of checks. What a store and an output must be is known
/// only if the sheet can be read.
fn rows() -> Vec<Row<Call>> {
    let mode_or_fuel: Row<Call> = (MODE_OR_FUEL, |call| {
        !(DOCUMENT.mode_and_fuel_are_right)(call.mode, call.fuel)
    });
    let later: [Row<Call>; 3] = [
        (STORE_MISFIT, |call| {
            sheet_of(call).is_some_and(|sheet| !(DOCUMENT.store_fits)(&sheet, &call.store))
        }),
        (MARK_WRONG, |call| {
            sheet_of(call).is_some_and(|sheet| marks_fail(&sheet, call))
        }),
        (OUT_SHORT, |call| {
            let length = call.output.len();
            sheet_of(call).is_some_and(|sheet| !(DOCUMENT.output_is_long_enough)(&sheet, length))
        }),
    ];
    let mut rows = vec![mode_or_fuel];
    rows.extend(rows_of_load());
    rows.extend(later);
    rows
}

fn sheet_of(call: &Call) -> Option<Sheet> {
    Sheet::read(&call.sheet).ok()
}

fn marks_fail(sheet: &Sheet, call: &Call) -> bool {
    let mode = match call.mode {
        0 => Mode::Strict,
        _ => Mode::Permissive,
    };
    entries(&call.store).any(|(mark, _)| !(DOCUMENT.mark_is_right)(sheet, mode, mark))
}

const LATE: Faults<Making<Call>> = &[
    ("11 only if there is something to write", |call, right| {
        let late = whatever_the_output(call);
        match right.answer.number == OUT_SHORT && late.number != DONE {
            true => Outcome::refused(late),
            false => right,
        }
    }),
    ("11 with the units of the run", |call, right| {
        let units = whatever_the_output(call).units;
        match right.answer.number {
            OUT_SHORT => Outcome::refused(Answer {
                units,
                ..right.answer
            }),
            _ => right,
        }
    }),
    ("15 before 13 and 14", |call, right| {
        let Answer { number, units, .. } = right.answer;
        let unstopped = never_stopped_by_an_operator(call);
        let in_an_expression = number == OUT_OF_RANGE || number == DIVISOR_ZERO;
        match in_an_expression && unstopped.number == NOT_BELOW && unstopped.units == units {
            true => Outcome::refused(unstopped),
            false => right,
        }
    }),
    ("13 to 16 before 12", |call, right| {
        let stop = match right.answer.number {
            FUEL_SPENT => with_a_unit_more(call),
            _ => right.answer,
        };
        match stop.number > FUEL_SPENT && stop.units > call.fuel {
            true => Outcome::refused(Answer {
                units: call.fuel,
                ..stop
            }),
            false => right,
        }
    }),
];

fn whatever_the_output(call: &Call) -> Answer {
    let rules = Rules {
        output_is_long_enough: |_, _| true,
        ..DOCUMENT
    };
    run_by(&rules, call).answer
}

fn never_stopped_by_an_operator(call: &Call) -> Answer {
    let rules = Rules {
        operate: |operator, left, right| {
            let result = (DOCUMENT.operate)(operator, left, right);
            Ok(result.unwrap_or(0))
        },
        ..DOCUMENT
    };
    run_by(&rules, call).answer
}

fn with_a_unit_more(call: &Call) -> Answer {
    let call = Call {
        fuel: call.fuel + 1,
        ..call.clone()
    };
    run(&call).answer
}
