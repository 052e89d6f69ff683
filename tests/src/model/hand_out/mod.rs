//! The model of hand-out: takes sheet, store, reader level and request and
//! writes the dealer's answer. Here stand the call, its checks in the order of
//! the table and what it brings about; `rules` has what decides.

pub mod rules;

use self::rules::{Rules, ANSWER_ENTRY_BYTES, DOCUMENT};
use super::answer::number::{
    DONE, MARK_WRONG, OUT_SHORT, PARTIAL_ASKED, READER_OR_REQUEST, STORE_MISFIT,
};
use super::sheet::{Sheet, COUNT_BYTES};
use super::store::{count, counted, entries, entries_of, Marked, Store};
use super::{judged, Answer, Outcome};

/// A call of hand-out.
#[derive(Clone, Debug, PartialEq, Eq)]
pub struct HandOut {
    pub sheet: Vec<u8>,
    pub store: Vec<u8>,
    pub reader: u32,
    pub request: Vec<u8>,
    /// What stands in the output before the call.
    pub output: Vec<u8>,
}

/// The bytes of an asked field's number.
pub const NUMBER_BYTES: usize = 2;

/// A request of these field numbers.
pub fn request(fields: &[usize]) -> Vec<u8> {
    let numbers = [fields.len()].into_iter().chain(fields.iter().copied());
    numbers.flat_map(|n| (n as u16).to_le_bytes()).collect()
}

/// The field numbers that stand whole behind a request's count.
pub fn asked(request: &[u8]) -> impl Iterator<Item = usize> + '_ {
    let numbers = request.get(COUNT_BYTES..).unwrap_or(&[]);
    let number = |bytes: &[u8]| usize::from(u16::from_le_bytes([bytes[0], bytes[1]]));
    numbers.chunks_exact(NUMBER_BYTES).map(number)
}

/// An answer of these entries: whether the field is shown, and the value.
pub fn answer(entries: &[(u8, i32)]) -> Vec<u8> {
    counted(entries.iter().copied())
}

/// The entries of an answer.
pub fn answered(answer: &[u8]) -> impl Iterator<Item = (u8, i32)> + '_ {
    entries_of(ANSWER_ENTRY_BYTES, answer)
}

/// Hand-out by the document's rules.
pub fn hand_out(call: &HandOut) -> Outcome {
    hand_out_by(&DOCUMENT, call)
}

/// Hand-out by these rules.
pub fn hand_out_by(rules: &Rules, call: &HandOut) -> Outcome {
    hand_out_watched(rules, call, &mut |_| {})
}

/// Hand-out by these rules, watched: what has passed the checks up to row 11 is seen.
pub fn hand_out_watched(rules: &Rules, call: &HandOut, watch: &mut dyn FnMut(&Asked)) -> Outcome {
    match Asked::checked(rules, call) {
        Ok(asked) => {
            watch(&asked);
            asked.outcome(rules)
        }
        Err(refusal) => Outcome::refused(refusal),
    }
}

/// A call that has passed the checks up to row 11.
pub struct Asked {
    pub sheet: Sheet,
    pub store: Store,
    pub reader: usize,
    /// The asked fields' numbers, in the order of the request.
    pub fields: Vec<usize>,
}

impl Asked {
    /// Load's rows, 8, 9, 17 and 11, in the order of checks.
    pub fn checked(rules: &Rules, call: &HandOut) -> Result<Asked, Answer> {
        let sheet = judged(&call.sheet)?;
        if !(rules.store_fits)(&sheet, &call.store) {
            return Err(Answer::plain(STORE_MISFIT));
        }
        if !entries(&call.store).all(|(mark, _)| (rules.mark_is_right)(&sheet, mark)) {
            return Err(Answer::plain(MARK_WRONG));
        }
        let fields = request_fields(rules, &sheet, call).ok_or(Answer::plain(READER_OR_REQUEST))?;
        if !(rules.output_is_long_enough)(fields.len(), call.output.len()) {
            return Err(Answer::plain(OUT_SHORT));
        }
        Ok(Asked {
            store: Store::read(&sheet, &call.store),
            sheet,
            reader: call.reader as usize,
            fields,
        })
    }

    /// The asked fields' values and marks, in the order of the request.
    pub fn marked(&self) -> impl Iterator<Item = Marked> + '_ {
        self.fields.iter().map(|&field| self.store.fields[field])
    }

    /// Whether the field's level lies at or below the reader.
    pub fn at_or_below_reader(&self, field: Marked) -> bool {
        let levels = &self.sheet.levels;
        levels.at_or_below(field.mark.level, self.reader)
    }

    /// Row 18, or the answer. Units are 0 for hand-out.
    fn outcome(&self, rules: &Rules) -> Outcome {
        if let Some(position) = (rules.refused_position)(self) {
            return Outcome::refused(Answer {
                place: position as u16,
                ..Answer::plain(PARTIAL_ASKED)
            });
        }
        let entries = self.marked().map(|field| {
            let (flag, value) = (rules.entry)(&self.sheet.levels, self.reader, field);
            (flag, value as i32)
        });
        Outcome {
            answer: Answer::plain(DONE),
            written: answer(&entries.collect::<Vec<_>>()),
        }
    }
}

/// Row 17: reader unknown, request's size, count or a field number wrong.
fn request_fields(rules: &Rules, sheet: &Sheet, call: &HandOut) -> Option<Vec<usize>> {
    let count = count(&call.request)?;
    let right = (rules.reader_is_known)(&sheet.levels, call.reader)
        && (rules.count_is_right)(count)
        && (rules.size_is_right)(count, call.request.len())
        && asked(&call.request)
            .take(count)
            .all(|field| (rules.field_is_known)(sheet, field));
    right.then(|| asked(&call.request).take(count).collect())
}
