//! Trials of hand-out: who sees what, what refuses, and each of its rows from
//! both sides.

use super::trees::*;
use super::*;
use crate::model::hand_out::rules::length;
use crate::model::hand_out::{answer, request};

/// The diamond and eight fields: fields 0 to 3 whole at each level, fields 4 to 7
/// partial at each.
fn quiet(reader: u32, fields: &[usize]) -> HandOut {
    let marked = [
        whole(0, 10),
        whole(1, -11),
        whole(2, 12),
        whole(3, 13),
        partial(0, 14),
        partial(1, -15),
        partial(2, 16),
        partial(3, 17),
    ];
    HandOut {
        sheet: Parts::of(&[15, 10, 12, 8], 8, skip()).bytes(),
        store: store(&marked),
        reader,
        request: request(fields),
        output: vec![9; length(fields.len())],
    }
}

/// The flags and values that are answered.
#[track_caller]
fn answers(call: &HandOut, fields: &[(u8, i32)]) {
    let outcome = hand_out(call);
    assert_eq!(outcome.answer, Answer::plain(DONE));
    assert_eq!(outcome.written, answer(fields));
}

#[track_caller]
fn gives(number: u8, place: u16, call: &HandOut) {
    let Outcome { answer, written } = hand_out(call);
    let right = Answer {
        place,
        ..Answer::plain(number)
    };
    assert_eq!(answer, right);
    if number != DONE {
        assert_eq!(written, []);
    }
}

const WITHHELD: (u8, i32) = (0, 0);

#[test]
fn a_reader_sees_what_is_whole_at_or_below_it() {
    let all = [0, 1, 2, 3];
    let bottom = (1, 10);
    let (left, right) = ((1, -11), (1, 12));
    answers(&quiet(0, &all), &[bottom, WITHHELD, WITHHELD, WITHHELD]);
    answers(&quiet(1, &all), &[bottom, left, WITHHELD, WITHHELD]);
    answers(&quiet(2, &all), &[bottom, WITHHELD, right, WITHHELD]);
    answers(&quiet(3, &all), &[bottom, left, right, (1, 13)]);
}

#[test]
fn repeats_and_empty_requests_are_answered() {
    answers(&quiet(0, &[]), &[]);
    answers(
        &quiet(1, &[1, 0, 1, 3]),
        &[(1, -11), (1, 10), (1, -11), WITHHELD],
    );
    answers(&quiet(0, &[0; 64]), &[(1, 10); 64]);
}

/// The fields that are partial at or below a reader, and those partial elsewhere.
const PARTIAL: [(&[usize], &[usize]); 4] = [
    (&[4], &[5, 6, 7]),
    (&[4, 5], &[6, 7]),
    (&[4, 6], &[5, 7]),
    (&[4, 5, 6, 7], &[]),
];

#[test]
fn a_partial_field_at_or_below_the_reader_refuses_all_of_it() {
    for (reader, (refusing, _)) in (0..).zip(PARTIAL) {
        for &field in refusing {
            gives(PARTIAL_ASKED, 0, &quiet(reader, &[field]));
            gives(PARTIAL_ASKED, 2, &quiet(reader, &[0, 3, field, 1, 4]));
            let mut late = vec![0; 63];
            late.push(field);
            gives(PARTIAL_ASKED, 63, &quiet(reader, &late));
        }
    }
}

#[test]
fn a_partial_field_elsewhere_is_withheld_beside_open_ones() {
    for (reader, (_, withheld)) in (0..).zip(PARTIAL) {
        for &field in withheld {
            answers(&quiet(reader, &[field]), &[WITHHELD]);
            answers(&quiet(reader, &[0, field]), &[(1, 10), WITHHELD]);
            answers(
                &quiet(reader, &[field, 3, 0]),
                &[WITHHELD, WITHHELD, (1, 10)],
            );
            answers(&quiet(reader, &[field; 64]), &[WITHHELD; 64]);
        }
    }
    // One above the reader and one beside it.
    answers(
        &quiet(1, &[7, 1, 6, 0, 2]),
        &[WITHHELD, (1, -11), WITHHELD, (1, 10), WITHHELD],
    );
}

#[test]
fn a_withheld_partial_field_before_the_one_that_refuses_is_not_told() {
    gives(PARTIAL_ASKED, 1, &quiet(0, &[7, 4]));
    gives(PARTIAL_ASKED, 3, &quiet(0, &[5, 6, 7, 4, 4]));
    gives(PARTIAL_ASKED, 2, &quiet(1, &[6, 1, 5, 7, 4]));
    gives(PARTIAL_ASKED, 1, &quiet(2, &[5, 6]));
    gives(PARTIAL_ASKED, 0, &quiet(2, &[6, 5]));
    let mut late = vec![7; 63];
    late.push(5);
    gives(PARTIAL_ASKED, 63, &quiet(1, &late));
    answers(&quiet(2, &late), &[WITHHELD; 64]);
}

#[test]
fn every_partial_field_refuses_top() {
    for field in 4..8 {
        gives(PARTIAL_ASKED, 1, &quiet(3, &[3, field]));
    }
    let one_level = HandOut {
        sheet: Parts::of(&[1], 2, skip()).bytes(),
        store: store(&[whole(0, 5), partial(0, 6)]),
        ..quiet(0, &[0, 1])
    };
    gives(PARTIAL_ASKED, 1, &one_level);
}

#[test]
fn readers() {
    for reader in [4, 5, 15, 16, 19, 256, 65_536, u32::MAX] {
        gives(READER_OR_REQUEST, 0, &quiet(reader, &[0]));
    }
}

#[test]
fn request_sizes_counts_and_field_numbers() {
    let with = |request: Vec<u8>| HandOut {
        request,
        output: vec![9; 500],
        ..quiet(0, &[])
    };
    let three = request(&[0, 1, 2]);
    for length in 0..8 {
        gives(READER_OR_REQUEST, 0, &with(three[..length].to_vec()));
    }
    for longer in [1, 2, 65_536] {
        let request = [three.clone(), vec![0; longer]].concat();
        gives(READER_OR_REQUEST, 0, &with(request));
    }
    gives(DONE, 0, &with(request(&[0; 64])));
    gives(READER_OR_REQUEST, 0, &with(request(&[0; 65])));
    gives(READER_OR_REQUEST, 0, &with(request(&vec![0; 65_535])));
    gives(READER_OR_REQUEST, 0, &with(vec![0xff, 0xff]));
    for field in [8, 9, 64, 256, 65_535] {
        gives(READER_OR_REQUEST, 0, &with(request(&[field])));
        gives(READER_OR_REQUEST, 0, &with(request(&[0, field])));
    }
}

#[test]
fn output_lengths() {
    for short in 0..length(2) {
        let output = vec![9; short];
        let call = quiet(0, &[0, 1]);
        gives(OUT_SHORT, 0, &HandOut { output, ..call });
    }
    let output = vec![9; 300];
    let call = quiet(0, &[0, 1]);
    answers(&HandOut { output, ..call }, &[(1, 10), WITHHELD]);
}

#[test]
fn any_mark_it_knows() {
    for mark in 0..=255 {
        let mut call = quiet(0, &[1]);
        call.store[mark_at(0)] = mark;
        gives(if of_diamond(mark) { DONE } else { MARK_WRONG }, 0, &call);
    }
}

#[test]
fn the_place_of_a_faulty_node_is_told() {
    let sheet = Parts::of(&[15, 10, 12, 8], 8, assign(8, constant(0))).bytes();
    gives(
        NODE_RANGE,
        1,
        &HandOut {
            sheet,
            ..quiet(0, &[0])
        },
    );
}

#[test]
fn the_first_failing_row_in_the_order_is_told() {
    let mut call = quiet(0, &[7, 4]);
    gives(PARTIAL_ASKED, 1, &call);
    call.output.pop();
    gives(OUT_SHORT, 0, &call);
    call.reader = 4;
    gives(READER_OR_REQUEST, 0, &call);
    call.store[mark_at(0)] = MOST_MARK + 1;
    gives(MARK_WRONG, 0, &call);
    call.store.push(0);
    gives(STORE_MISFIT, 0, &call);
    let last_place = call.sheet.len() - 1;
    call.sheet[last_place] = 1;
    gives(NODE_UNUSED, 0, &call);
    call.sheet.push(0);
    gives(SHEET_LENGTH, 0, &call);
}
