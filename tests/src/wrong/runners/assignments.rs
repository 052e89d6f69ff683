//! Runners wrong about the mark of an assigned field.

use super::{in_rules, Faults, WrongRunner};
use crate::model::levels::Levels;
use crate::model::marks::{join, meet, Mark};
use crate::model::number::{NOT_BELOW, PARTIAL_TEST};
use crate::model::rules::{Assigned, DOCUMENT};
use crate::model::run::Mode;

pub fn runners() -> Vec<WrongRunner> {
    let faults = [LYING_BELOW, BELOW, CONTEXT_NOT_BELOW, STOPS].concat();
    in_rules! { crate::model::rules; mark_of_assigned: &faults }
}

type Assign = fn(&Levels, Mode, Assigned) -> Result<Mark, u8>;

/// The document's rule.
fn right(levels: &Levels, mode: Mode, assigned: Assigned) -> Result<Mark, u8> {
    (DOCUMENT.mark_of_assigned)(levels, mode, assigned)
}

fn lies_below(levels: &Levels, assigned: Assigned) -> bool {
    levels.at_or_below(assigned.context, assigned.field.level)
}

/// m joined with the context.
fn joined(levels: &Levels, assigned: Assigned) -> Mark {
    assigned.mark.join(Mark::whole(assigned.context), levels)
}

/// The meet of the context and A.
fn met(levels: &Levels, assigned: Assigned) -> usize {
    meet(levels, assigned.context, assigned.field.level)
}

/// The document's rule, with this said of whether the context lies below A.
fn said(below: bool, levels: &Levels, mode: Mode, assigned: Assigned) -> Result<Mark, u8> {
    match (below, mode) {
        (true, _) => Ok(joined(levels, assigned)),
        (false, Mode::Strict) => Err(NOT_BELOW),
        (false, Mode::Permissive) => Ok(Mark::partial(met(levels, assigned))),
    }
}

/// Wrong about whether the context lies at or below A.
const LYING_BELOW: Faults<Assign> = &[
    (
        "an assignment compares the other way round",
        |levels, mode, assigned| {
            let below = levels.at_or_below(assigned.field.level, assigned.context);
            said(below, levels, mode, assigned)
        },
    ),
    (
        "an assignment compares level numbers",
        |levels, mode, assigned| {
            said(
                assigned.context <= assigned.field.level,
                levels,
                mode,
                assigned,
            )
        },
    ),
    (
        "an assignment compares with m's level",
        |levels, mode, assigned| {
            let below = levels.at_or_below(assigned.context, assigned.mark.level);
            said(below, levels, mode, assigned)
        },
    ),
    ("every context lies below", |levels, mode, assigned| {
        said(true, levels, mode, assigned)
    }),
    (
        "no context lies below a partial field",
        |levels, mode, assigned| {
            let below = lies_below(levels, assigned) && !assigned.field.partial;
            said(below, levels, mode, assigned)
        },
    ),
    (
        "every context lies below a partial field",
        |levels, mode, assigned| {
            let below = lies_below(levels, assigned) || assigned.field.partial;
            said(below, levels, mode, assigned)
        },
    ),
];

/// The document's rule, but for this mark where the context lies below A.
fn below(levels: &Levels, mode: Mode, assigned: Assigned, mark: Mark) -> Result<Mark, u8> {
    match lies_below(levels, assigned) {
        true => Ok(mark),
        false => right(levels, mode, assigned),
    }
}

const BELOW: Faults<Assign> = &[
    ("the context is not joined", |levels, mode, assigned| {
        below(levels, mode, assigned, assigned.mark)
    }),
    ("A is joined too", |levels, mode, assigned| {
        let field = Mark::whole(assigned.field.level);
        let mark = joined(levels, assigned).join(field, levels);
        below(levels, mode, assigned, mark)
    }),
    (
        "a partial value is stored whole",
        |levels, mode, assigned| {
            let mark = Mark::whole(joined(levels, assigned).level);
            below(levels, mode, assigned, mark)
        },
    ),
    ("a partial field stays partial", |levels, mode, assigned| {
        let field = assigned.field;
        let Mark { level, partial } = joined(levels, assigned);
        let partial = partial || field.partial;
        below(levels, mode, assigned, Mark { level, partial })
    }),
];

/// The document's rule, but for this mark where permissive mode stores although
/// the context doesn't lie below A.
fn upgraded(levels: &Levels, mode: Mode, assigned: Assigned, mark: Mark) -> Result<Mark, u8> {
    match mode == Mode::Permissive && !lies_below(levels, assigned) {
        true => Ok(mark),
        false => right(levels, mode, assigned),
    }
}

const CONTEXT_NOT_BELOW: Faults<Assign> = &[
    ("A kept instead of the meet", |levels, mode, assigned| {
        let kept = Mark::partial(assigned.field.level);
        upgraded(levels, mode, assigned, kept)
    }),
    (
        "the context instead of the meet",
        |levels, mode, assigned| {
            let context = Mark::partial(assigned.context);
            upgraded(levels, mode, assigned, context)
        },
    ),
    ("BOT instead of the meet", |levels, mode, assigned| {
        let bottom = Mark::partial(levels.bottom());
        upgraded(levels, mode, assigned, bottom)
    }),
    ("the join instead of the meet", |levels, mode, assigned| {
        let level = join(levels, assigned.context, assigned.field.level);
        upgraded(levels, mode, assigned, Mark::partial(level))
    }),
    ("m's level in the meet too", |levels, mode, assigned| {
        let level = meet(levels, met(levels, assigned), assigned.mark.level);
        upgraded(levels, mode, assigned, Mark::partial(level))
    }),
    (
        "m joined with the context instead of the meet",
        |levels, mode, assigned| {
            let level = joined(levels, assigned).level;
            upgraded(levels, mode, assigned, Mark::partial(level))
        },
    ),
    ("the meet is whole", |levels, mode, assigned| {
        let level = met(levels, assigned);
        upgraded(levels, mode, assigned, Mark::whole(level))
    }),
    (
        "the meet is partial only if m is",
        |levels, mode, assigned| {
            let level = met(levels, assigned);
            let partial = assigned.mark.partial;
            upgraded(levels, mode, assigned, Mark { level, partial })
        },
    ),
];

const STOPS: Faults<Assign> = &[
    ("strict mode stores too", |levels, _, assigned| {
        right(levels, Mode::Permissive, assigned)
    }),
    ("permissive mode stops too", |levels, _, assigned| {
        right(levels, Mode::Strict, assigned)
    }),
    ("16 for 15", |levels, mode, assigned| {
        right(levels, mode, assigned).map_err(|_| PARTIAL_TEST)
    }),
];
