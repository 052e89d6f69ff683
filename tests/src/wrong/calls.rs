//! Those that answer calls and are wrong on purpose, whatever kind of call it is.
//! Faults stand in tables under their names.

use crate::compare::calls::{compare, Compared};
use crate::compare::effect::Effect;
use crate::model::number::*;
use crate::model::sheet::COUNT_BYTES;
use crate::model::{load, Answer, Outcome};
use crate::wrong::judges::faults::TOLD;
use std::ops::Range;

/// One with a fault.
pub struct Wrong<C> {
    pub name: String,
    outcome: Box<dyn Fn(&C) -> Outcome>,
}

/// A fault under its name.
pub type Named<Fault> = (&'static str, Fault);

/// A table of faults.
pub type Faults<Fault> = &'static [Named<Fault>];

/// What is made of a right outcome.
pub type Making<C> = fn(&C, Outcome) -> Outcome;

/// What is made of a right answer.
pub type Answering<C> = fn(&C, Answer) -> Answer;

/// What is made of the bytes that are right to write.
pub type Writing<C> = fn(&C, &mut Vec<u8>);

/// The bytes that are written on a refusal.
pub type Spoiling<C> = fn(&C, Answer) -> Vec<u8>;

/// A table of rules that calls of a kind are answered by.
pub trait Rulebook<C>: Copy + 'static {
    fn outcome(&self, call: &C) -> Outcome;
}

/// Wrong about one rule each: rules by name, each with its table of faults, in the
/// document's rules of this module.
macro_rules! in_rules {
    ($($module:ident)::+; $($rule:ident: $faults:expr),+ $(,)?) => {{
        use $($module)::+::{Rules, DOCUMENT};
        let mut wrong = Vec::new();
        $(for &(name, $rule) in $faults {
            wrong.push($crate::wrong::calls::Wrong::by((name, Rules { $rule, ..DOCUMENT })));
        })+
        wrong
    }};
}
pub(super) use in_rules;

impl<C: Compared> Wrong<C> {
    pub fn new(name: impl Into<String>, outcome: impl Fn(&C) -> Outcome + 'static) -> Wrong<C> {
        Wrong {
            name: name.into(),
            outcome: Box::new(outcome),
        }
    }

    /// Goes by these rules.
    pub fn by<R: Rulebook<C>>((name, rules): Named<R>) -> Wrong<C> {
        Wrong::new(name, move |call: &C| rules.outcome(call))
    }

    /// Makes something else of the right outcome.
    pub fn making((name, wrong): Named<Making<C>>) -> Wrong<C> {
        Wrong::new(name, move |call: &C| wrong(call, call.outcome()))
    }

    /// Takes another call for the one it got.
    pub fn mistaking((name, change): Named<fn(&mut C)>) -> Wrong<C> {
        Wrong::new(name, move |call: &C| {
            let mut mistaken = call.clone();
            change(&mut mistaken);
            mistaken.outcome()
        })
    }

    /// Gives this answer for the right one.
    pub fn answering((name, wrong): Named<Answering<C>>) -> Wrong<C> {
        Wrong::new(name, move |call: &C| {
            let right = call.outcome();
            Outcome {
                answer: wrong(call, right.answer),
                ..right
            }
        })
    }

    /// Writes something else on success.
    pub fn writing((name, change): Named<Writing<C>>) -> Wrong<C> {
        Wrong::new(name, move |call: &C| {
            let mut right = call.outcome();
            if right.answer.number == DONE {
                change(call, &mut right.written);
            }
            right
        })
    }

    /// Writes something on refusal.
    pub fn spoiling((name, written): Named<Spoiling<C>>) -> Wrong<C> {
        Wrong::new(name, move |call: &C| {
            let right = call.outcome();
            match right.answer.number {
                DONE => right,
                _ => Outcome {
                    written: written(call, right.answer),
                    ..right
                },
            }
        })
    }

    pub fn effect(&self, call: &C) -> Effect {
        call.effect(&(self.outcome)(call))
    }
}

/// Where the entries stand in what a call has written: in a store or an answer.
pub fn entries<C: Compared>(written: &[u8]) -> impl Iterator<Item = Range<usize>> {
    let starts = (COUNT_BYTES..written.len()).step_by(C::ENTRY_BYTES);
    starts.map(|start| start..start + C::ENTRY_BYTES)
}

/// Where an entry's value stands.
pub fn value_of(entry: Range<usize>) -> Range<usize> {
    entry.start + 1..entry.start + 1 + size_of::<i32>()
}

/// As much of these bytes as the output takes.
pub fn fitting<C: Compared>(call: &C, bytes: &[u8]) -> Vec<u8> {
    let end = bytes.len().min(call.output_before().len());
    bytes[..end].to_vec()
}

/// Wrong about what is written, whatever that is.
pub fn about_writes<C: Compared>() -> Vec<Wrong<C>> {
    let on_success: [Named<Writing<C>>; 8] = [
        ("nothing written", |_, written| written.clear()),
        ("the count not written", |call, written| {
            written[..COUNT_BYTES].copy_from_slice(&call.output_before()[..COUNT_BYTES]);
        }),
        ("the last byte not written", |_, written| {
            written.pop();
        }),
        ("the last field not written", |_, written| {
            let shorter = written.len().saturating_sub(C::ENTRY_BYTES);
            written.truncate(shorter.max(COUNT_BYTES));
        }),
        ("only 32 fields written", |_, written| {
            written.truncate(COUNT_BYTES + 32 * C::ENTRY_BYTES);
        }),
        ("the rest of the output cleared", |call, written| {
            written.resize(call.output_before().len(), 0);
        }),
        ("a byte behind what is due written", |_, written| {
            written.push(0)
        }),
        ("values in big-endian", |_, written| {
            entries::<C>(written).for_each(|entry| written[value_of(entry)].reverse());
        }),
    ];
    let on_refusal: [Named<Spoiling<C>>; 2] = [
        ("the number written on a refusal", |call, answer| {
            fitting(call, &[answer.number])
        }),
        ("the output cleared on a refusal", |call, _| {
            vec![0; call.output_before().len()]
        }),
    ];
    let on_success = on_success.map(Wrong::writing);
    let on_refusal = on_refusal.map(Wrong::spoiling);
    on_success.into_iter().chain(on_refusal).collect()
}

/// Wrong about the place and units of success.
pub fn about_success<C: Compared>() -> Vec<Wrong<C>> {
    let wrong: [Named<Answering<C>>; 2] = [
        ("a unit more on success", |_, answer| Answer {
            units: answer.units + u32::from(answer.number == DONE),
            ..answer
        }),
        ("a place on success", |_, answer| Answer {
            place: answer.place + u16::from(answer.number == DONE),
            ..answer
        }),
    ];
    wrong.map(Wrong::answering).into()
}

/// Wrong about what is told of a faulty node.
pub fn about_nodes<C: Compared>() -> Vec<Wrong<C>> {
    let answering = |&(name, wrong): &Named<fn(Answer) -> Answer>| {
        Wrong::new(name, move |call: &C| {
            let mut right = call.outcome();
            if OF_NODES.contains(&right.answer.number) {
                right.answer = wrong(right.answer);
            }
            right
        })
    };
    TOLD.iter().map(answering).collect()
}

/// A row, and whether a call fails it, other rows aside.
pub type Row<C> = (u8, fn(&C) -> bool);

/// Load's rows in the order of checks.
pub fn rows_of_load<C: Compared>() -> [Row<C>; 10] {
    [
        (SHEET_LENGTH, loads_as::<C, SHEET_LENGTH>),
        (COUNT_OUTSIDE, loads_as::<C, COUNT_OUTSIDE>),
        (LEVELS_WRONG, loads_as::<C, LEVELS_WRONG>),
        (NAME_WRONG, loads_as::<C, NAME_WRONG>),
        (NODE_UNKNOWN, loads_as::<C, NODE_UNKNOWN>),
        (NODE_UNUSED, loads_as::<C, NODE_UNUSED>),
        (NODE_RANGE, loads_as::<C, NODE_RANGE>),
        (NODE_SORT, loads_as::<C, NODE_SORT>),
        (NOT_USED_ONCE, loads_as::<C, NOT_USED_ONCE>),
        (TOO_DEEP, loads_as::<C, TOO_DEEP>),
    ]
}

fn loads_as<C: Compared, const NUMBER: u8>(call: &C) -> bool {
    load(call.sheet()).number == NUMBER
}

/// Of two rows that both fail, the later one is told. Load's rows among each
/// other are left to the wrong judges.
pub fn rows_exchanged<C: Compared>(rows: &[Row<C>]) -> Vec<Wrong<C>> {
    let mut wrong = Vec::new();
    for (at, &(late, fails)) in rows.iter().enumerate() {
        for &(early, _) in &rows[..at] {
            let of_load = is_of_load(early) && is_of_load(late);
            let unread = early == SHEET_LENGTH || early == COUNT_OUTSIDE;
            if !of_load && !unread {
                wrong.push(told(late, early, fails));
            }
        }
    }
    wrong
}

fn is_of_load(number: u8) -> bool {
    number <= TOO_DEEP || OF_NODES.contains(&number)
}

fn told<C: Compared>(late: u8, early: u8, fails: fn(&C) -> bool) -> Wrong<C> {
    Wrong::new(format!("{late} before {early}"), move |call: &C| {
        let right = call.outcome();
        match right.answer.number == early && fails(call) {
            true if is_of_load(late) => Outcome::refused(load(call.sheet())),
            true => Outcome::refused(Answer::plain(late)),
            false => right,
        }
    })
}

/// The names of those that the comparison takes for right on so many calls.
pub fn not_found_out<C: Compared>(wrong: &[Wrong<C>], seed: u64, calls: u64) -> Vec<&str> {
    let passes = |wrong: &&Wrong<C>| {
        let effect = |call: &C| wrong.effect(call);
        compare(seed, 0..calls, &effect).is_ok()
    };
    wrong
        .iter()
        .filter(passes)
        .map(|wrong| wrong.name.as_str())
        .collect()
}
