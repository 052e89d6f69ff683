//! Hand-outs that ask the right questions in the wrong order.

use super::WrongHandOut;
use crate::model::hand_out::asked;
use crate::model::hand_out::rules::{length, DOCUMENT};
use crate::model::marks::Mark;
use crate::model::number::{MARK_WRONG, OUT_SHORT, PARTIAL_ASKED, READER_OR_REQUEST, STORE_MISFIT};
use crate::model::sheet::Sheet;
use crate::model::store::{count, entries};
use crate::model::HandOut;
use crate::wrong::calls::{rows_exchanged, rows_of_load, Row};

pub fn hand_outs() -> Vec<WrongHandOut> {
    let mut rows = rows_of_load().to_vec();
    rows.extend(LATER);
    rows_exchanged(&rows)
}

/// The later rows in the order of checks. What a store and a request must be is
/// known only if the sheet can be read.
const LATER: [Row<HandOut>; 5] = [
    (STORE_MISFIT, |call| {
        sheet_of(call).is_some_and(|sheet| !(DOCUMENT.store_fits)(&sheet, &call.store))
    }),
    (MARK_WRONG, |call| {
        let mut marks = entries(&call.store).map(|(mark, _)| mark);
        let sheet = sheet_of(call);
        sheet.is_some_and(|sheet| marks.any(|mark| !(DOCUMENT.mark_is_right)(&sheet, mark)))
    }),
    (READER_OR_REQUEST, |call| {
        sheet_of(call).is_some_and(|sheet| request_fails(&sheet, call))
    }),
    (OUT_SHORT, |call| {
        let count = count(&call.request);
        count.is_some_and(|count| call.output.len() < length(count))
    }),
    (PARTIAL_ASKED, |call| {
        sheet_of(call).is_some_and(|sheet| partial_asked(&sheet, call))
    }),
];

fn sheet_of(call: &HandOut) -> Option<Sheet> {
    Sheet::read(&call.sheet).ok()
}

fn request_fails(sheet: &Sheet, call: &HandOut) -> bool {
    let reader = (DOCUMENT.reader_is_known)(&sheet.levels, call.reader);
    let size = count(&call.request).is_some_and(|count| {
        (DOCUMENT.count_is_right)(count) && (DOCUMENT.size_is_right)(count, call.request.len())
    });
    let mut fields = asked(&call.request);
    !(reader && size && fields.all(|field| (DOCUMENT.field_is_known)(sheet, field)))
}

/// Of a reader that is known; fields and marks that are not known are passed over.
fn partial_asked(sheet: &Sheet, call: &HandOut) -> bool {
    let reader = call.reader as usize;
    let refuses = |mark: u8| {
        let known = Mark::read(mark).filter(|mark| mark.level < sheet.levels.count());
        known.is_some_and(|mark| mark.partial && sheet.levels.at_or_below(mark.level, reader))
    };
    let mark = |field| entries(&call.store).map(|(mark, _)| mark).nth(field);
    let mut marks = asked(&call.request).filter_map(mark);
    (DOCUMENT.reader_is_known)(&sheet.levels, call.reader) && marks.any(refuses)
}
