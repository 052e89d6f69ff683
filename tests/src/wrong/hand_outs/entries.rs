//! Hand-outs wrong about the 5 bytes of an asked field.

use super::WrongHandOut;
use crate::model::hand_out::rules::DOCUMENT;
use crate::model::levels::Levels;
use crate::model::store::Marked;
use crate::wrong::calls::{in_rules, Faults};

pub fn hand_outs() -> Vec<WrongHandOut> {
    in_rules! {
        crate::model::hand_out::rules;
        entry: ENTRIES,
        entry: PARTIAL_ELSEWHERE,
    }
}

pub type Entry = fn(&Levels, usize, Marked) -> (u8, i64);

/// The document's rule.
fn right(levels: &Levels, reader: usize, field: Marked) -> (u8, i64) {
    (DOCUMENT.entry)(levels, reader, field)
}

/// The document's rule, with this said of whether the field is open.
fn said(open: bool, field: Marked) -> (u8, i64) {
    match open {
        true => (1, field.value),
        false => (0, 0),
    }
}

const ENTRIES: Faults<Entry> = &[
    (
        "the reader compared the other way round",
        |levels, reader, field| said(levels.at_or_below(reader, field.mark.level), field),
    ),
    ("level numbers compared", |_, reader, field| {
        said(field.mark.level <= reader, field)
    }),
    ("only the reader's own level open", |_, reader, field| {
        said(field.mark.level == reader, field)
    }),
    (
        "the reader's own level closed",
        |levels, reader, field| match field.mark.level == reader {
            true => (0, 0),
            false => right(levels, reader, field),
        },
    ),
    ("levels beside the reader open", |levels, reader, field| {
        let above = levels.at_or_below(reader, field.mark.level);
        said(!above || field.mark.level == reader, field)
    }),
    ("every field open", |_, _, field| said(true, field)),
    ("every field closed", |_, _, field| said(false, field)),
    ("only BOT open", |levels, _, field| {
        said(field.mark.level == levels.bottom(), field)
    }),
    ("all but TOP open to all", |levels, reader, field| {
        match field.mark.level == levels.top() {
            true => right(levels, reader, field),
            false => said(true, field),
        }
    }),
    ("a closed field's value shown", |levels, reader, field| {
        (right(levels, reader, field).0, field.value)
    }),
    ("a closed field told as open", |levels, reader, field| {
        (1, right(levels, reader, field).1)
    }),
    ("an open 0 told as closed", |levels, reader, field| {
        let (flag, value) = right(levels, reader, field);
        (flag * u8::from(value != 0), value)
    }),
    ("0 and 1 exchanged", |levels, reader, field| {
        let (flag, value) = right(levels, reader, field);
        (1 - flag, value)
    }),
    ("the mark for the 1", |levels, reader, field| {
        let (flag, value) = right(levels, reader, field);
        (flag * field.mark.byte(), value)
    }),
    ("255 for the 1", |levels, reader, field| {
        let (flag, value) = right(levels, reader, field);
        (flag * 255, value)
    }),
    ("values of two bytes", |levels, reader, field| {
        let (flag, value) = right(levels, reader, field);
        (flag, i64::from(value as i16))
    }),
];

/// The document's rule, with this told of a partial field. One at or below the reader
/// has been refused.
fn elsewhere(told: (u8, i64), levels: &Levels, reader: usize, field: Marked) -> (u8, i64) {
    match field.mark.partial {
        true => told,
        false => right(levels, reader, field),
    }
}

const PARTIAL_ELSEWHERE: Faults<Entry> = &[
    (
        "a partial field elsewhere told as open",
        |levels, reader, field| elsewhere((1, field.value), levels, reader, field),
    ),
    (
        "a partial field elsewhere told as an open 0",
        |levels, reader, field| elsewhere((1, 0), levels, reader, field),
    ),
    (
        "the value of a partial field elsewhere behind the 0",
        |levels, reader, field| elsewhere((0, field.value), levels, reader, field),
    ),
    (
        "a partial field elsewhere told as such",
        |levels, reader, field| elsewhere((2, 0), levels, reader, field),
    ),
    (
        "the mark of a partial field elsewhere for the 0",
        |levels, reader, field| elsewhere((field.mark.byte(), 0), levels, reader, field),
    ),
];
