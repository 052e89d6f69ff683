//! Hand-outs wrong about what they answer and write, on success and on refusal.

use super::WrongHandOut;
use crate::model::hand_out::rules::{length, Rules, DOCUMENT};
use crate::model::hand_out::{asked, hand_out_by, request, Asked};
use crate::model::number::{DONE, NODE_RANGE, OUT_SHORT, PARTIAL_ASKED, READER_OR_REQUEST};
use crate::model::sheet::COUNT_BYTES;
use crate::model::{Answer, HandOut, Outcome};
use crate::wrong::calls::{self, fitting, value_of};
use crate::wrong::calls::{Answering, Faults, Making, Spoiling, Writing};
use std::ops::Range;

/// Where the entries of an answer stand.
fn entries(answer: &[u8]) -> impl Iterator<Item = Range<usize>> {
    calls::entries::<HandOut>(answer)
}

pub fn hand_outs() -> Vec<WrongHandOut> {
    let on_success = ON_SUCCESS.iter().copied().map(WrongHandOut::writing);
    let on_refusal = ON_REFUSAL.iter().copied().map(WrongHandOut::spoiling);
    let fixed = FIXED.iter().copied().map(WrongHandOut::making);
    let answers = ANSWERS.iter().copied().map(WrongHandOut::answering);
    on_success
        .chain(on_refusal)
        .chain(fixed)
        .chain(answers)
        .collect()
}

const ON_SUCCESS: Faults<Writing<HandOut>> = &[
    ("the fields' count for the request's", |call, written| {
        written[..COUNT_BYTES].copy_from_slice(&call.store[..COUNT_BYTES]);
    }),
    (
        "the request's first field for the count",
        |call, written| {
            let first = asked(&call.request).next().unwrap_or(0);
            written[..COUNT_BYTES].copy_from_slice(&(first as u16).to_le_bytes());
        },
    ),
    ("a closed field's bytes not written", |call, written| {
        for entry in entries(written) {
            if written[entry.start] == 0 {
                written[entry.clone()].copy_from_slice(&call.output[entry]);
            }
        }
    }),
    ("a closed field's value not written", |call, written| {
        for entry in entries(written) {
            if written[entry.start] == 0 {
                let value = value_of(entry);
                written[value.clone()].copy_from_slice(&call.output[value]);
            }
        }
    }),
    (
        "a partial field elsewhere left out of the answer",
        |call, written| {
            leave_out(&partial_elsewhere(call), written);
            let left = (entries(written).count() as u16).to_le_bytes();
            written[..COUNT_BYTES].copy_from_slice(&left);
        },
    ),
    (
        "a partial field elsewhere left out, the count kept",
        |call, written| leave_out(&partial_elsewhere(call), written),
    ),
    (
        "a partial field elsewhere and all behind it left out",
        |call, written| {
            if let Some(first) = partial_elsewhere(call).first() {
                written.truncate(first.start);
            }
        },
    ),
    ("a partial field elsewhere not written", |call, written| {
        for entry in partial_elsewhere(call) {
            written[entry.clone()].copy_from_slice(&call.output[entry]);
        }
    }),
    ("the answers in the fields' order", |call, written| {
        let mut order: Vec<(usize, usize)> = asked(&call.request).zip(0..).collect();
        order.sort_unstable();
        let right = written.clone();
        for ((_, from), entry) in order.into_iter().zip(entries(&right)) {
            written[entry].copy_from_slice(&right[length(from)..length(from + 1)]);
        }
    }),
    ("a repeat answered as closed", |call, written| {
        let fields: Vec<usize> = asked(&call.request).collect();
        for (position, entry) in entries(&written.clone()).enumerate() {
            if fields[..position].contains(&fields[position]) {
                written[entry].fill(0);
            }
        }
    }),
    ("the first fields for the asked ones", |call, written| {
        let mut numbered = call.clone();
        let fields = usize::from(call.store[0]);
        let count = asked(&call.request).count();
        let first: Vec<usize> = (0..count).map(|position| position % fields).collect();
        numbered.request = request(&first);
        *written = hand_out_by(&UNREFUSED, &numbered).written;
    }),
];

/// Where an answer's partial fields stand, all of them withheld.
fn partial_elsewhere(call: &HandOut) -> Vec<Range<usize>> {
    let asked = Asked::checked(&DOCUMENT, call);
    let marked = asked.iter().flat_map(Asked::marked).enumerate();
    let partial = marked.filter(|(_, field)| field.mark.partial);
    partial
        .map(|(position, _)| length(position)..length(position + 1))
        .collect()
}

/// Takes these entries out.
fn leave_out(left_out: &[Range<usize>], written: &mut Vec<u8>) {
    for entry in left_out.iter().rev() {
        written.drain(entry.clone());
    }
}

/// Whatever is partial.
const UNREFUSED: Rules = Rules {
    refused_position: |_| None,
    ..DOCUMENT
};

/// What would be written if nothing were partial.
fn unrefused(call: &HandOut) -> Vec<u8> {
    hand_out_by(&UNREFUSED, call).written
}

const ON_REFUSAL: Faults<Spoiling<HandOut>> = &[
    ("the count written on 18", |call, answer| {
        match answer.number {
            PARTIAL_ASKED => call.request[..COUNT_BYTES].to_vec(),
            _ => Vec::new(),
        }
    }),
    (
        "the answer up to the partial field written on 18",
        |call, answer| match answer.number {
            PARTIAL_ASKED => {
                let mut written = unrefused(call);
                written.truncate(length(answer.place.into()));
                written
            }
            _ => Vec::new(),
        },
    ),
    (
        "the whole answer written on 18",
        |call, answer| match answer.number {
            PARTIAL_ASKED => unrefused(call),
            _ => Vec::new(),
        },
    ),
    ("the request written on 17", |call, answer| {
        match answer.number {
            READER_OR_REQUEST => fitting(call, &call.request),
            _ => Vec::new(),
        }
    }),
    ("the count written on 11", |call, answer| {
        match answer.number {
            OUT_SHORT => fitting(call, &call.request[..2]),
            _ => Vec::new(),
        }
    }),
];

const FIXED: Faults<Making<HandOut>> = &[
    ("every sheet refused", |_, _| {
        Outcome::refused(Answer::plain(NODE_RANGE))
    }),
    ("every request refused", |_, right| {
        match right.answer.number {
            DONE => Outcome::refused(Answer::plain(READER_OR_REQUEST)),
            _ => right,
        }
    }),
    ("an empty answer to all", |_, right| {
        match right.answer.number {
            DONE | PARTIAL_ASKED => Outcome {
                answer: Answer::plain(DONE),
                written: vec![0, 0],
            },
            _ => right,
        }
    }),
];

const ANSWERS: Faults<Answering<HandOut>> = &[
    ("the count as units", |call, answer| match answer.number {
        DONE => Answer {
            units: asked(&call.request).count() as u32,
            ..answer
        },
        _ => answer,
    }),
    ("the wrong field's position told on 17", |call, answer| {
        let fields = usize::from(call.store.first().copied().unwrap_or(0));
        let wrong = asked(&call.request).position(|field| field >= fields);
        match answer.number {
            READER_OR_REQUEST => Answer {
                place: wrong.unwrap_or(0) as u16,
                ..answer
            },
            _ => answer,
        }
    }),
];
