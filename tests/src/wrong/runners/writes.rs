//! Runners wrong about what they write, on success and on refusal.

use super::{Faults, WrongRunner};
use crate::model::marks::PARTIAL;
use crate::model::number::{FUEL_SPENT, MARK_WRONG, OUT_SHORT, PARTIAL_TEST};
use crate::model::rules::DOCUMENT;
use crate::model::run::Start;
use crate::model::sheet::COUNT_BYTES;
use crate::model::Call;
use crate::wrong::calls::{self, fitting, value_of, Spoiling, Writing};
use std::ops::Range;

/// Where the entries of a store stand.
fn entries(store: &[u8]) -> impl Iterator<Item = Range<usize>> {
    calls::entries::<Call>(store)
}

pub fn runners() -> Vec<WrongRunner> {
    let on_success = ON_SUCCESS.iter().copied().map(WrongRunner::writing);
    let on_refusal = ON_REFUSAL.iter().copied().map(WrongRunner::spoiling);
    on_success.chain(on_refusal).collect()
}

const ON_SUCCESS: Faults<Writing<Call>> = &[
    ("the start store handed back", |call, written| {
        written.copy_from_slice(&call.store);
    }),
    ("only changed fields written", |call, written| {
        for entry in entries(&call.store) {
            if written[entry.clone()] == call.store[entry.clone()] {
                written[entry.clone()].copy_from_slice(&call.output[entry]);
            }
        }
    }),
    ("start marks written", |call, written| {
        entries(&call.store).for_each(|entry| written[entry.start] = call.store[entry.start]);
    }),
    ("start values written", |call, written| {
        for value in entries(&call.store).map(value_of) {
            written[value.clone()].copy_from_slice(&call.store[value]);
        }
    }),
    ("partial marks written whole", |call, written| {
        entries(&call.store).for_each(|entry| written[entry.start] %= PARTIAL);
    }),
    ("levels of three bits written", |call, written| {
        entries(&call.store).for_each(|entry| written[entry.start] &= !8);
    }),
];

const ON_REFUSAL: Faults<Spoiling<Call>> = &[
    (
        "the start store written on a stop",
        |call, answer| match answer.number {
            FUEL_SPENT..=PARTIAL_TEST => call.store.clone(),
            _ => Vec::new(),
        },
    ),
    (
        "the store so far written on a stop",
        |call, _| match Start::checked(&DOCUMENT, call) {
            Ok(start) => start.run(&DOCUMENT).store.bytes(),
            Err(_) => Vec::new(),
        },
    ),
    ("what fits written on 11", |call, answer| {
        match answer.number {
            OUT_SHORT => fitting(call, &call.store),
            _ => Vec::new(),
        }
    }),
    ("the count written on 9", |call, answer| {
        match answer.number {
            MARK_WRONG => fitting(call, &call.store[..COUNT_BYTES]),
            _ => Vec::new(),
        }
    }),
];
