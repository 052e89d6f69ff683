//! Runners wrong about tests, contexts and units.

use super::{in_rules, Faults, WrongRunner};
use crate::model::levels::Levels;
use crate::model::marks::{join, Mark};
use crate::model::number::{NOT_BELOW, PARTIAL_TEST};
use crate::model::rules::{Contexts, DOCUMENT};
use crate::model::typed::Command;

pub fn runners() -> Vec<WrongRunner> {
    in_rules! {
        crate::model::rules;
        first_context: FIRST,
        context_of_body: BODIES,
        context_of_next_round: NEXT_ROUNDS,
        context_afterwards: AFTERWARDS,
        units: UNITS,
    }
}

const FIRST: Faults<fn(&Levels) -> usize> = &[
    ("the first context is level 0", |_| 0),
    ("the first context is TOP", |levels| levels.top()),
];

type Body = fn(&Levels, usize, Mark) -> Result<usize, u8>;

const BODIES: Faults<Body> = &[
    ("a partial test let through", |levels, context, test| {
        Ok(join(levels, context, test.level))
    }),
    (
        "a partial test raises nothing",
        |levels, context, test| match test.partial {
            true => Ok(context),
            false => Ok(join(levels, context, test.level)),
        },
    ),
    ("a test raises nothing", |_, context, test| {
        match test.partial {
            true => Err(PARTIAL_TEST),
            false => Ok(context),
        }
    }),
    ("a test's level is the context", |_, _, test| {
        match test.partial {
            true => Err(PARTIAL_TEST),
            false => Ok(test.level),
        }
    }),
    (
        "15 for a partial test",
        |levels, context, test| match test.partial {
            true => Err(NOT_BELOW),
            false => Ok(join(levels, context, test.level)),
        },
    ),
];

type NextRound = fn(&Levels, Contexts, Mark) -> Result<usize, u8>;

const NEXT_ROUNDS: Faults<NextRound> = &[
    (
        "the old context in later rounds of a while",
        |_, contexts, test| match test.partial {
            true => Err(PARTIAL_TEST),
            false => Ok(contexts.old),
        },
    ),
    (
        "a later partial test let through",
        |levels, contexts, test| Ok(join(levels, contexts.joined, test.level)),
    ),
];

const AFTERWARDS: Faults<fn(Contexts) -> usize> =
    &[("the raised context stays after the command", |contexts| {
        contexts.joined
    })];

const UNITS: Faults<fn(Command) -> u32> = &[
    ("a sequence spends a unit", |_| 1),
    ("a skip is free", |command| match command {
        Command::Skip => 0,
        _ => (DOCUMENT.units)(command),
    }),
    ("an assignment is free", |command| match command {
        Command::Assignment { .. } => 0,
        _ => (DOCUMENT.units)(command),
    }),
    ("an if's test is free", |command| match command {
        Command::If { .. } => 0,
        _ => (DOCUMENT.units)(command),
    }),
    ("a while's tests are free", |command| match command {
        Command::While { .. } => 0,
        _ => (DOCUMENT.units)(command),
    }),
    ("a while's test spends two", |command| match command {
        Command::While { .. } => 2,
        _ => (DOCUMENT.units)(command),
    }),
];
