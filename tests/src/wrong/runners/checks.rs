//! Runners wrong about rows 8 to 11, each row by itself.

use super::{in_rules, Faults, Named, WrongRunner};
use crate::compare::effect::GUARD;
use crate::model::marks::{level_of, Mark, MOST_MARK, PARTIAL};
use crate::model::number::STORE_MISFIT;
use crate::model::rules::{DOCUMENT, MOST_FUEL};
use crate::model::run::Mode;
use crate::model::sheet::{Sheet, COUNT_BYTES};
use crate::model::store::{count, length, length_of, mark_at, marks_mut};
use crate::model::{run, Call};
use crate::wrong::calls::Making;

pub fn runners() -> Vec<WrongRunner> {
    let mut runners = in_rules! {
        crate::model::rules;
        mode_and_fuel_are_right: MODES_AND_FUELS,
        store_fits: STORES,
        mark_is_right: MARKS,
        output_is_long_enough: OUTPUTS,
    };
    runners.push(WrongRunner::making(SHORT_STORE));
    runners.extend(MISTAKEN.iter().copied().map(WrongRunner::mistaking));
    runners.extend(OVERLOOKED.iter().copied().map(overlooking));
    runners
}

const MODES_AND_FUELS: Faults<fn(u32, u32) -> bool> = &[
    ("mode 2 taken", |mode, fuel| mode <= 2 && fuel <= MOST_FUEL),
    ("only the low byte of the mode", |mode, fuel| {
        mode % 256 <= 1 && fuel <= MOST_FUEL
    }),
    ("any mode taken", |_, fuel| fuel <= MOST_FUEL),
    ("strict mode refused", |mode, fuel| {
        mode == 1 && fuel <= MOST_FUEL
    }),
    ("a unit over the most fuel taken", |mode, fuel| {
        mode <= 1 && fuel <= MOST_FUEL + 1
    }),
    ("the most fuel refused", |mode, fuel| {
        mode <= 1 && fuel < MOST_FUEL
    }),
    ("fuel of 20 bits taken", |mode, fuel| {
        mode <= 1 && fuel < 1 << 20
    }),
    ("fuel as a signed number", |mode, fuel| {
        mode <= 1 && fuel as i32 <= MOST_FUEL as i32
    }),
];

const STORES: Faults<fn(&Sheet, &[u8]) -> bool> = &[
    ("bytes behind the store taken", |sheet, store| {
        store.len() >= length(sheet) && count(store) == Some(sheet.fields.len())
    }),
    ("one byte behind the store taken", |sheet, store| {
        let byte_left = store.len() == length(sheet) + 1;
        (DOCUMENT.store_fits)(sheet, store) || byte_left && count(store) == Some(sheet.fields.len())
    }),
    ("the store's length in two bytes", |sheet, store| {
        store.len() % 65_536 == length(sheet) && count(store) == Some(sheet.fields.len())
    }),
    ("the store's count not judged", |sheet, store| {
        store.len() == length(sheet)
    }),
    ("the low byte of the store's count", |sheet, store| {
        let low = count(store).map(|count| count % 256);
        store.len() == length(sheet) && low == Some(sheet.fields.len())
    }),
    ("a store of more fields taken", |sheet, store| {
        let fields = count(store).unwrap_or(0);
        fields >= sheet.fields.len() && store.len() == length_of(fields)
    }),
];

const SHORT_STORE: Named<Making<Call>> = ("a store a byte short taken", |call, right| {
    let mut longer = call.clone();
    longer.store.push(0);
    match right.answer.number {
        STORE_MISFIT => run(&longer),
        _ => right,
    }
});

const MARKS: Faults<fn(&Sheet, Mode, u8) -> bool> = &[
    (
        "9 not for a partial mark in a strict run",
        |sheet, _, mark| (DOCUMENT.mark_is_right)(sheet, Mode::Permissive, mark),
    ),
    ("9 for a partial mark in any run", |sheet, _, mark| {
        (DOCUMENT.mark_is_right)(sheet, Mode::Strict, mark)
    }),
    ("9 for the last level", |sheet, mode, mark| {
        let level = Mark::read(mark).map(|mark| mark.level);
        (DOCUMENT.mark_is_right)(sheet, mode, mark) && level != Some(sheet.levels.count() - 1)
    }),
];

const OUTPUTS: Faults<fn(&Sheet, usize) -> bool> = &[
    ("an output a byte short taken", |sheet, output| {
        output + 1 >= length(sheet)
    }),
    ("an output without a count taken", |sheet, output| {
        output + COUNT_BYTES >= length(sheet)
    }),
    ("the output not judged", |sheet, output| {
        output + GUARD >= length(sheet)
    }),
    ("an output of just the store refused", |sheet, output| {
        output > length(sheet)
    }),
    ("a longer output refused", |sheet, output| {
        output == length(sheet)
    }),
];

const MISTAKEN: Faults<fn(&mut Call)> = &[
    ("only 16 bits of the fuel", |call| call.fuel %= 1 << 16),
    ("strict and permissive exchanged", |call| match call.mode {
        0 | 1 => call.mode = 1 - call.mode,
        _ => {}
    }),
    ("only five bits of a mark", |call| {
        marks_mut(&mut call.store).for_each(|mark| *mark &= MOST_MARK);
    }),
    ("one level too many", |call| {
        let levels = fields_and_levels(call).map(|(_, levels)| levels);
        let marks = marks_mut(&mut call.store);
        let unknown = marks.filter(|mark| Some(level_of(**mark)) == levels);
        unknown.for_each(|mark| *mark -= 1);
    }),
];

fn fields_and_levels(call: &Call) -> Option<(usize, usize)> {
    let sheet = Sheet::read(&call.sheet).ok()?;
    Some((sheet.fields.len(), sheet.levels.count()))
}

/// Of which of so many fields a mark is not judged.
const OVERLOOKED: Faults<fn(usize, usize) -> bool> = &[
    ("no mark judged", |_, _| true),
    ("the first mark not judged", |field, _| field == 0),
    ("the last mark not judged", |field, fields| {
        field + 1 == fields
    }),
    ("only the first mark judged", |field, _| field > 0),
];

/// Puts the marks right that are overlooked.
fn overlooking((name, overlooked): Named<fn(usize, usize) -> bool>) -> WrongRunner {
    WrongRunner::new(name, move |call| {
        let mut mistaken = call.clone();
        let Some((fields, levels)) = fields_and_levels(call) else {
            return run(call);
        };
        for field in (0..fields).filter(|&field| overlooked(field, fields)) {
            if let Some(mark) = mistaken.store.get_mut(mark_at(field)) {
                let partial = *mark & if call.mode == 0 { 0 } else { PARTIAL };
                *mark = partial | level_of(*mark).min(levels - 1) as u8;
            }
        }
        run(&mistaken)
    })
}
