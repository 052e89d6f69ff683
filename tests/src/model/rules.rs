//! The rules of a run, each a function under the sentence of the document that
//! it follows. A run goes by a table of them, so that a runner which is wrong
//! about one rule can be made from the others.

use super::answer::number::{NOT_BELOW, PARTIAL_TEST};
use super::follow::{Run, Stop};
use super::levels::Levels;
use super::marks::{join, meet, Mark};
use super::run::Mode;
use super::sheet::Sheet;
use super::store::{self, Marked};
use super::typed::Command;
use super::values::{self, Operator};

/// What a run goes by.
#[derive(Clone, Copy)]
pub struct Rules {
    pub mode_and_fuel_are_right: fn(u32, u32) -> bool,
    pub store_fits: fn(&Sheet, &[u8]) -> bool,
    pub mark_is_right: fn(&Sheet, Mode, u8) -> bool,
    pub output_is_long_enough: fn(&Sheet, usize) -> bool,
    pub operate: fn(Operator, i64, i64) -> Result<i64, u8>,
    pub not: fn(i64) -> i64,
    pub is_true: fn(i64) -> bool,
    pub both_sides: fn(&Run, Operator, usize, usize) -> Result<Sides, Stop>,
    pub mark_of_constant: fn(&Levels) -> Mark,
    pub level_of_operator: fn(&Levels, Mark, Mark) -> usize,
    pub operator_is_partial: fn(Mark, Mark) -> bool,
    pub mark_of_not: fn(&Levels, Mark) -> Mark,
    pub mark_of_seal: fn(&Levels, Mark) -> Mark,
    pub first_context: fn(&Levels) -> usize,
    pub context_of_body: fn(&Levels, usize, Mark) -> Result<usize, u8>,
    pub context_of_next_round: fn(&Levels, Contexts, Mark) -> Result<usize, u8>,
    pub context_afterwards: fn(Contexts) -> usize,
    pub mark_of_assigned: fn(&Levels, Mode, Assigned) -> Result<Mark, u8>,
    pub units: fn(Command) -> u32,
}

/// Left and right of an operator.
pub type Sides = (Marked, Marked);

/// The context that an if or while began with, and the one that it now has.
#[derive(Clone, Copy)]
pub struct Contexts {
    pub old: usize,
    pub joined: usize,
}

/// What decides the new mark of an assigned field.
#[derive(Clone, Copy)]
pub struct Assigned {
    /// The expression's mark, m.
    pub mark: Mark,
    /// The mark of the field so far; its level is A.
    pub field: Mark,
    pub context: usize,
}

/// The document's rules.
pub const DOCUMENT: Rules = Rules {
    mode_and_fuel_are_right,
    store_fits,
    mark_is_right,
    output_is_long_enough,
    operate: values::operate,
    not: values::not,
    is_true: values::is_true,
    both_sides,
    mark_of_constant,
    level_of_operator,
    operator_is_partial,
    mark_of_not,
    mark_of_seal,
    first_context,
    context_of_body,
    context_of_next_round,
    context_afterwards,
    mark_of_assigned,
    units,
};

/// The most fuel that a call may bring.
pub const MOST_FUEL: u32 = 1_000_000;

/// Row 10: mode not 0 (strict) or 1 (permissive), or fuel over 1,000,000.
fn mode_and_fuel_are_right(mode: u32, fuel: u32) -> bool {
    mode <= 1 && fuel <= MOST_FUEL
}

/// Row 8: store length or count doesn't fit the sheet.
fn store_fits(sheet: &Sheet, bytes: &[u8]) -> bool {
    bytes.len() == store::length(sheet) && store::count(bytes) == Some(sheet.fields.len())
}

/// Row 9: a mark above 31 or its level unknown; in a strict run also a partial mark.
fn mark_is_right(sheet: &Sheet, mode: Mode, byte: u8) -> bool {
    Mark::read(byte).is_some_and(|mark| {
        mark.level < sheet.levels.count() && !(mode == Mode::Strict && mark.partial)
    })
}

/// Row 11: output shorter than the store.
fn output_is_long_enough(sheet: &Sheet, output: usize) -> bool {
    output >= store::length(sheet)
}

/// Both sides of and, or are always worked out. Left is worked out before right,
/// and the first stop met is the one told.
fn both_sides(run: &Run, _: Operator, left: usize, right: usize) -> Result<Sides, Stop> {
    let left = run.expression(left)?;
    let right = run.expression(right)?;
    Ok((left, right))
}

/// A constant is whole BOT.
fn mark_of_constant(levels: &Levels) -> Mark {
    Mark::whole(levels.bottom())
}

/// An operator's mark is the join of both levels,
fn level_of_operator(levels: &Levels, left: Mark, right: Mark) -> usize {
    join(levels, left.level, right.level)
}

/// and it is partial if either is.
fn operator_is_partial(left: Mark, right: Mark) -> bool {
    left.partial || right.partial
}

/// "Not" keeps the mark.
fn mark_of_not(_: &Levels, mark: Mark) -> Mark {
    mark
}

/// Seal gives whole TOP, whatever stood there.
fn mark_of_seal(levels: &Levels, _: Mark) -> Mark {
    Mark::whole(levels.top())
}

/// The run starts with context BOT.
fn first_context(levels: &Levels) -> usize {
    levels.bottom()
}

/// A partial test stops the run; else the body runs in the context joined with
/// the test's level.
fn context_of_body(levels: &Levels, context: usize, test: Mark) -> Result<usize, u8> {
    match test.partial {
        true => Err(PARTIAL_TEST),
        false => Ok(join(levels, context, test.level)),
    }
}

/// A while keeps the joined context for its next tests and rounds.
fn context_of_next_round(levels: &Levels, contexts: Contexts, test: Mark) -> Result<usize, u8> {
    context_of_body(levels, contexts.joined, test)
}

/// The old context returns after the command.
fn context_afterwards(contexts: Contexts) -> usize {
    contexts.old
}

/// If the context lies at or below A: new mark is m joined with the context, and
/// it is partial only if m is. Otherwise strict mode stops, and permissive mode
/// stores the value with the meet of the context and A, partial, whatever m is.
fn mark_of_assigned(levels: &Levels, mode: Mode, assigned: Assigned) -> Result<Mark, u8> {
    let Assigned {
        mark,
        field,
        context,
    } = assigned;
    if levels.at_or_below(context, field.level) {
        return Ok(mark.join(Mark::whole(context), levels));
    }
    match mode {
        Mode::Strict => Err(NOT_BELOW),
        Mode::Permissive => Ok(Mark::partial(meet(levels, context, field.level))),
    }
}

/// Sequence is free. Each skip, assignment and test spends one unit.
fn units(command: Command) -> u32 {
    match command {
        Command::Sequence { .. } => 0,
        _ => 1,
    }
}
