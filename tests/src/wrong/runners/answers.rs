//! Runners wrong about the answer: units, places, or everything.

use super::{Faults, Named, WrongRunner};
use crate::model::number::{DONE, FUEL_SPENT, NODE_RANGE, OUT_OF_RANGE, PARTIAL_TEST, STOPS};
use crate::model::rules::MOST_FUEL;
use crate::model::sheet::{Node, Sheet};
use crate::model::{run, Answer, Call, Outcome};
use crate::wrong::calls::{Answering, Making};

pub fn runners() -> Vec<WrongRunner> {
    let mut runners: Vec<WrongRunner> = UNITS.iter().copied().map(WrongRunner::answering).collect();
    runners.extend(PLACES.iter().copied().map(placing));
    runners.extend(RUN_AGAIN.iter().copied().map(WrongRunner::making));
    runners.extend(FIXED.iter().copied().map(WrongRunner::making));
    runners
}

/// Whether the call has passed all checks.
fn has_run(answer: Answer) -> bool {
    answer.number == DONE || STOPS.contains(&answer.number)
}

const UNITS: Faults<Answering<Call>> = &[
    ("no units on success", |_, answer| match answer.number {
        DONE => Answer::plain(DONE),
        _ => answer,
    }),
    ("no units on a stop", |_, answer| match answer.number {
        DONE => answer,
        _ => Answer { units: 0, ..answer },
    }),
    ("a stopped node's unit not spent", |_, answer| Answer {
        units: answer.units - u32::from(matches!(answer.number, OUT_OF_RANGE..=PARTIAL_TEST)),
        ..answer
    }),
    ("used up fuel has spent a unit more", |_, answer| Answer {
        units: answer.units + u32::from(answer.number == FUEL_SPENT),
        ..answer
    }),
    (
        "the units left for those spent",
        |call, answer| match has_run(answer) {
            true => Answer {
                units: call.fuel - answer.units,
                ..answer
            },
            false => answer,
        },
    ),
    ("units in two bytes", |_, answer| Answer {
        units: answer.units % 65_536,
        ..answer
    }),
    ("fewer than 1,000,000 units told", |_, answer| Answer {
        units: answer.units.min(MOST_FUEL - 1),
        ..answer
    }),
];

/// Says this place for the right one of a stop.
fn placing((name, wrong): Named<fn(&[Node], u16) -> u16>) -> WrongRunner {
    WrongRunner::new(name, move |call| {
        let mut right = run(call);
        if STOPS.contains(&right.answer.number) {
            let sheet = Sheet::read(&call.sheet).expect("a sheet that runs");
            right.answer.place = wrong(&sheet.nodes, right.answer.place);
        }
        right
    })
}

const PLACES: Faults<fn(&[Node], u16) -> u16> = &[
    ("no place", |_, _| 0),
    ("the last node for the place", |nodes, _| {
        nodes.len() as u16 - 1
    }),
    ("the parent for the place", |nodes, place| {
        let is_parent = |node: &Node| node.children().any(|child| child == place.into());
        let parent = nodes.iter().position(is_parent);
        parent.map_or(place, |parent| parent as u16)
    }),
    ("the low byte of the place", |_, place| place % 256),
];

fn with_fuel(call: &Call, fuel: u32) -> Outcome {
    let call = Call {
        fuel,
        ..call.clone()
    };
    run(&call)
}

const RUN_AGAIN: Faults<Making<Call>> = &[
    ("the last unit can't be spent", |call, right| {
        match has_run(right.answer) && call.fuel > 0 {
            true => with_fuel(call, call.fuel - 1),
            false => right,
        }
    }),
    (
        "a unit more than the fuel can be spent",
        |call, right| match right.answer.number == FUEL_SPENT && call.fuel < MOST_FUEL {
            true => with_fuel(call, call.fuel + 1),
            false => right,
        },
    ),
];

const FIXED: Faults<Making<Call>> = &[
    ("every sheet refused", |_, _| {
        Outcome::refused(Answer::plain(NODE_RANGE))
    }),
    ("every call done", |_, _| {
        Outcome::refused(Answer::plain(DONE))
    }),
    ("every run done", |call, right| {
        match has_run(right.answer) {
            true => Outcome {
                answer: Answer {
                    number: DONE,
                    place: 0,
                    ..right.answer
                },
                written: call.store.clone(),
            },
            false => right,
        }
    }),
];
