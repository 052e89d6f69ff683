//! Hand-outs wrong about rows 8, 9, 17 and 11, each row by itself.

use super::WrongHandOut;
use crate::compare::effect::GUARD;
use crate::model::hand_out::rules::{length, DOCUMENT, MOST_ASKED};
use crate::model::hand_out::{asked, request, NUMBER_BYTES};
use crate::model::levels::Levels;
use crate::model::marks::{level_of, Mark, MOST_MARK};
use crate::model::number::{DONE, MARK_WRONG, OUT_SHORT, PARTIAL_ASKED, READER_OR_REQUEST};
use crate::model::rules as run;
use crate::model::run::Mode;
use crate::model::sheet::{Sheet, COUNT_BYTES};
use crate::model::store::{self, count, entries, mark_at, marks_mut};
use crate::model::{hand_out, Answer, HandOut, Outcome};
use crate::wrong::calls::{in_rules, Faults, Making};

pub fn hand_outs() -> Vec<WrongHandOut> {
    let mut hand_outs = in_rules! {
        crate::model::hand_out::rules;
        store_fits: STORES,
        mark_is_right: MARKS,
        reader_is_known: READERS,
        count_is_right: COUNTS,
        size_is_right: SIZES,
        field_is_known: FIELDS,
        output_is_long_enough: OUTPUTS,
    };
    hand_outs.extend(MISTAKEN.iter().copied().map(WrongHandOut::mistaking));
    hand_outs.extend(MAKING.iter().copied().map(WrongHandOut::making));
    hand_outs
}

const STORES: Faults<fn(&Sheet, &[u8]) -> bool> = &[
    ("bytes behind the store taken", |sheet, store| {
        store.len() >= store::length(sheet) && count(store) == Some(sheet.fields.len())
    }),
    ("the store's count not judged", |sheet, store| {
        store.len() == store::length(sheet)
    }),
    ("the store's length in two bytes", |sheet, store| {
        store.len() % 65_536 == store::length(sheet) && count(store) == Some(sheet.fields.len())
    }),
];

const MARKS: Faults<fn(&Sheet, u8) -> bool> = &[
    ("9 for a partial mark", |sheet, mark| {
        (run::DOCUMENT.mark_is_right)(sheet, Mode::Strict, mark)
    }),
    ("9 for the last level", |sheet, mark| {
        let last = sheet.levels.count() - 1;
        (DOCUMENT.mark_is_right)(sheet, mark) && level_of(mark) != last
    }),
];

const READERS: Faults<fn(&Levels, u32) -> bool> = &[
    ("the last level unknown as a reader", |levels, reader| {
        (reader as usize) < levels.count() - 1
    }),
    ("reader 0 unknown", |levels, reader| {
        reader > 0 && (DOCUMENT.reader_is_known)(levels, reader)
    }),
    ("only TOP may read", |levels, reader| {
        reader as usize == levels.top()
    }),
];

const COUNTS: Faults<fn(usize) -> bool> = &[
    ("64 fields too many", |count| count < MOST_ASKED),
    ("65 fields not too many", |count| count <= MOST_ASKED + 1),
    ("no limit of fields", |_| true),
    ("no field too few", |count| {
        (1..=MOST_ASKED).contains(&count)
    }),
];

const SIZES: Faults<fn(usize, usize) -> bool> = &[
    ("bytes behind the request taken", |count, bytes| {
        bytes >= COUNT_BYTES + NUMBER_BYTES * count
    }),
    ("one byte behind the request taken", |count, bytes| {
        bytes / 2 * 2 == COUNT_BYTES + NUMBER_BYTES * count
    }),
    ("the request's length in two bytes", |count, bytes| {
        bytes % 65_536 == COUNT_BYTES + NUMBER_BYTES * count
    }),
];

const FIELDS: Faults<fn(&Sheet, usize) -> bool> = &[
    ("the last field unknown", |sheet, field| {
        field + 1 < sheet.fields.len()
    }),
    ("field 0 unknown", |sheet, field| {
        (1..sheet.fields.len()).contains(&field)
    }),
];

const OUTPUTS: Faults<fn(usize, usize) -> bool> = &[
    ("an output a byte short taken", |count, output| {
        output + 1 >= length(count)
    }),
    ("an output without a count taken", |count, output| {
        output + COUNT_BYTES >= length(count)
    }),
    ("the output not judged", |count, output| {
        output + GUARD >= length(count)
    }),
    ("an output of just the answer refused", |count, output| {
        output > length(count)
    }),
    ("a longer output refused", |count, output| {
        output == length(count)
    }),
    ("an output for 64 fields asked for", |_, output| {
        output >= length(MOST_ASKED)
    }),
];

/// Puts another field in the place of each that is asked.
fn with_fields(call: &mut HandOut, change: impl Fn(usize) -> usize) {
    let fields: Vec<usize> = asked(&call.request).map(change).collect();
    let changed = request(&fields);
    let request = call.request.iter_mut().zip(changed);
    request
        .skip(COUNT_BYTES)
        .for_each(|(byte, changed)| *byte = changed);
}

fn fields_and_levels(call: &HandOut) -> Option<(usize, usize)> {
    let sheet = Sheet::read(&call.sheet).ok()?;
    Some((sheet.fields.len(), sheet.levels.count()))
}

const MISTAKEN: Faults<fn(&mut HandOut)> = &[
    ("only the low byte of the reader", |call| call.reader %= 256),
    ("only 16 bits of the reader", |call| call.reader %= 1 << 16),
    ("only four bits of the reader", |call| call.reader %= 16),
    ("one reader too many", |call| {
        let levels = fields_and_levels(call).map(|(_, levels)| levels as u32);
        call.reader -= u32::from(Some(call.reader) == levels);
    }),
    ("an unknown reader is level 0", |call| {
        if fields_and_levels(call).is_some_and(|(_, levels)| call.reader as usize >= levels) {
            call.reader = 0;
        }
    }),
    ("only the low byte of a field", |call| {
        with_fields(call, |field| field % 256);
    }),
    ("one field too many", |call| {
        if let Some((fields, _)) = fields_and_levels(call) {
            with_fields(call, |field| field - usize::from(field == fields));
        }
    }),
    ("unknown fields go round", |call| {
        if let Some((fields, _)) = fields_and_levels(call) {
            with_fields(call, |field| field % fields);
        }
    }),
    ("only the low byte of the count", |call| {
        if let Some(high) = call.request.get_mut(1) {
            *high = 0;
        }
    }),
    ("the count from the request's length", |call| {
        let numbers = asked(&call.request).count() as u16;
        if call.request.len() == COUNT_BYTES + NUMBER_BYTES * usize::from(numbers) {
            call.request[..COUNT_BYTES].copy_from_slice(&numbers.to_le_bytes());
        }
    }),
    ("no request is an empty one", |call| {
        if call.request.is_empty() {
            call.request = request(&[]);
        }
    }),
    ("only five bits of a mark", |call| {
        marks_mut(&mut call.store).for_each(|mark| *mark &= MOST_MARK);
    }),
];

/// Refuses with this number what should be answered, or refused with 18.
fn refusing(right: Outcome, number: u8, so: bool) -> Outcome {
    match right.answer.number {
        DONE | PARTIAL_ASKED if so => Outcome::refused(Answer::plain(number)),
        _ => right,
    }
}

const MAKING: Faults<Making<HandOut>> = &[
    ("only asked fields' marks judged", |call, right| {
        let Some((_, levels)) = fields_and_levels(call) else {
            return right;
        };
        let mut mistaken = call.clone();
        for (field, (mark, _)) in entries(&call.store).enumerate() {
            let known = Mark::read(mark).is_some_and(|mark| mark.level < levels);
            if !known && !asked(&call.request).any(|asked| asked == field) {
                mistaken.store[mark_at(field)] = 0;
            }
        }
        match right.answer.number {
            MARK_WRONG => hand_out(&mistaken),
            _ => right,
        }
    }),
    ("repeats refused", |call, right| {
        let mut fields: Vec<usize> = asked(&call.request).collect();
        fields.sort_unstable();
        let repeated = fields.windows(2).any(|two| two[0] == two[1]);
        refusing(right, READER_OR_REQUEST, repeated)
    }),
    ("no more asked than there are fields", |call, right| {
        let fields = fields_and_levels(call).map_or(0, |(fields, _)| fields);
        refusing(
            right,
            READER_OR_REQUEST,
            asked(&call.request).count() > fields,
        )
    }),
    ("an output as long as the store asked for", |call, right| {
        refusing(right, OUT_SHORT, call.output.len() < call.store.len())
    }),
];
