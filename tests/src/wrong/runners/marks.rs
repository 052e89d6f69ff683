//! Runners wrong about the marks of expressions.

use super::{in_rules, Faults, WrongRunner};
use crate::model::levels::Levels;
use crate::model::marks::{join, meet, Mark};

pub fn runners() -> Vec<WrongRunner> {
    in_rules! {
        crate::model::rules;
        operator_is_partial: PARTIAL_OPERATORS,
        level_of_operator: LEVELS_OF_OPERATORS,
        mark_of_constant: CONSTANTS,
        mark_of_not: NOTS,
        mark_of_seal: SEALS,
    }
}

const PARTIAL_OPERATORS: Faults<fn(Mark, Mark) -> bool> = &[
    ("an operator loses partial", |_, _| false),
    ("an operator is partial only if both are", |left, right| {
        left.partial && right.partial
    }),
    ("an operator is partial if the left is", |left, _| {
        left.partial
    }),
    ("an operator is partial if the right is", |_, right| {
        right.partial
    }),
];

const LEVELS_OF_OPERATORS: Faults<fn(&Levels, Mark, Mark) -> usize> = &[
    ("an operator has the left's level", |_, left, _| left.level),
    ("an operator has the right's level", |_, _, right| {
        right.level
    }),
    (
        "an operator has the greater level number",
        |_, left, right| left.level.max(right.level),
    ),
    ("an operator has the meet", |levels, left, right| {
        meet(levels, left.level, right.level)
    }),
    (
        "an operator has a partial side's level",
        |levels, left, right| match (left.partial, right.partial) {
            (true, false) => left.level,
            (false, true) => right.level,
            _ => join(levels, left.level, right.level),
        },
    ),
];

const CONSTANTS: Faults<fn(&Levels) -> Mark> = &[
    ("a constant has level 0", |_| Mark::whole(0)),
    ("a constant has TOP", |levels| Mark::whole(levels.top())),
    ("a constant is partial", |levels| {
        Mark::partial(levels.bottom())
    }),
];

const NOTS: Faults<fn(&Levels, Mark) -> Mark> = &[
    ("not drops the mark", |levels, _| {
        Mark::whole(levels.bottom())
    }),
    ("not makes the mark whole", |_, mark| {
        Mark::whole(mark.level)
    }),
    ("not seals", |levels, _| Mark::whole(levels.top())),
];

const SEALS: Faults<fn(&Levels, Mark) -> Mark> = &[
    ("seal keeps the level", |_, mark| Mark::whole(mark.level)),
    ("seal keeps partial", |levels, mark| Mark {
        level: levels.top(),
        ..mark
    }),
    ("seal keeps the mark", |_, mark| mark),
    ("seal keeps partial marks", |levels, mark| {
        match mark.partial {
            true => mark,
            false => Mark::whole(levels.top()),
        }
    }),
    ("seal gives BOT", |levels, _| Mark::whole(levels.bottom())),
    ("seal gives the last level", |levels, _| {
        Mark::whole(levels.count() - 1)
    }),
];
