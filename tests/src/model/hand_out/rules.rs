//! The rules of a hand-out, each a function under the sentence of the document
//! that it follows, in a table as those of a run.

use super::{Asked, NUMBER_BYTES};
use crate::model::levels::Levels;
use crate::model::rules as run;
use crate::model::run::Mode;
use crate::model::sheet::{Sheet, COUNT_BYTES};
use crate::model::store::Marked;

/// What a hand-out goes by.
#[derive(Clone, Copy)]
pub struct Rules {
    pub store_fits: fn(&Sheet, &[u8]) -> bool,
    pub mark_is_right: fn(&Sheet, u8) -> bool,
    pub reader_is_known: fn(&Levels, u32) -> bool,
    pub count_is_right: fn(usize) -> bool,
    pub size_is_right: fn(usize, usize) -> bool,
    pub field_is_known: fn(&Sheet, usize) -> bool,
    pub output_is_long_enough: fn(usize, usize) -> bool,
    pub refused_position: fn(&Asked) -> Option<usize>,
    pub entry: fn(&Levels, usize, Marked) -> (u8, i64),
}

/// The document's rules.
pub const DOCUMENT: Rules = Rules {
    store_fits: run::DOCUMENT.store_fits,
    mark_is_right,
    reader_is_known,
    count_is_right,
    size_is_right,
    field_is_known,
    output_is_long_enough,
    refused_position,
    entry,
};

/// The most fields that a request may ask.
pub const MOST_ASKED: usize = 64;

/// Row 9: a mark above 31 or its level unknown; hand-out takes any mark it knows.
fn mark_is_right(sheet: &Sheet, byte: u8) -> bool {
    (run::DOCUMENT.mark_is_right)(sheet, Mode::Permissive, byte)
}

fn reader_is_known(levels: &Levels, reader: u32) -> bool {
    (reader as usize) < levels.count()
}

/// A request is a count of 0 to 64,
fn count_is_right(count: usize) -> bool {
    count <= MOST_ASKED
}

/// then a 2-byte field number each;
fn size_is_right(count: usize, bytes: usize) -> bool {
    bytes == COUNT_BYTES + NUMBER_BYTES * count
}

/// repeats are allowed.
fn field_is_known(sheet: &Sheet, field: usize) -> bool {
    field < sheet.fields.len()
}

/// The bytes of an asked field in an answer: whether it is shown, and the value.
pub const ANSWER_ENTRY_BYTES: usize = 5;

/// The length of an answer for so many asked fields.
pub fn length(count: usize) -> usize {
    COUNT_BYTES + ANSWER_ENTRY_BYTES * count
}

/// Row 11: output shorter than the answer.
fn output_is_long_enough(count: usize, output: usize) -> bool {
    output >= length(count)
}

/// Only a partial field at or below the reader still refuses, and all of it; told is
/// the first such position in the request, from 0.
fn refused_position(asked: &Asked) -> Option<usize> {
    let mut fields = asked.marked();
    fields.position(|field| field.mark.partial && asked.at_or_below_reader(field))
}

/// 1 and the value if whole at or below the reader; 0 and value 0 if whole
/// elsewhere. A partial field whose level isn't at or below the reader is handed out
/// as withheld, like a whole closed one.
fn entry(levels: &Levels, reader: usize, field: Marked) -> (u8, i64) {
    match levels.at_or_below(field.mark.level, reader) {
        true => (1, field.value),
        false => (0, 0),
    }
}
