//! Trials of run's checks: each of rows 8 to 11 from both sides, and the order
//! of the checks.

use super::trees::*;
use super::*;

/// The diamond, three fields and a skip.
fn quiet() -> Call {
    let sheet = Parts::of(&[15, 10, 12, 8], 3, skip());
    let fields = [whole(0, 1), whole(1, -2), whole(3, 3)];
    call(&sheet, &fields, STRICT, 1)
}

#[track_caller]
fn gives(number: u8, call: &Call) {
    let Outcome { answer, written } = run(call);
    assert_eq!(answer.number, number);
    if number != DONE {
        assert_eq!(answer, Answer::plain(number));
        assert_eq!(written, []);
    }
}

#[test]
fn success_writes_exactly_the_store() {
    for longer in [0, 1, 5, 300] {
        let mut call = quiet();
        call.output.resize(length_of(3) + longer, 9);
        let Outcome { answer, written } = run(&call);
        assert_eq!(answer.word(), 1 << 32);
        assert_eq!(written, call.store);
    }
}

#[test]
fn modes_and_fuels() {
    for mode in [0, 1] {
        gives(DONE, &Call { mode, ..quiet() });
    }
    for mode in [2, 3, 256, 257, 65_536, 1 << 31, u32::MAX] {
        gives(MODE_OR_FUEL, &Call { mode, ..quiet() });
    }
    for fuel in [1, 65_536, 999_999, 1_000_000] {
        gives(DONE, &Call { fuel, ..quiet() });
    }
    for fuel in [1_000_001, 1_048_576, 1 << 31, u32::MAX] {
        gives(MODE_OR_FUEL, &Call { fuel, ..quiet() });
    }
}

#[test]
fn store_lengths_and_counts() {
    let right = length_of(3);
    for length in (0..right).chain([right + 1, length_of(4), 65_536 + right]) {
        let mut call = quiet();
        call.store.resize(length, 0);
        call.output = vec![0; 70_000];
        gives(STORE_MISFIT, &call);
    }
    for count in [[0, 0], [2, 0], [4, 0], [3, 1], [0, 3], [255, 255]] {
        let mut call = quiet();
        call.store[..2].copy_from_slice(&count);
        gives(STORE_MISFIT, &call);
    }
    // One field more or less, count and length in step.
    for fields in [vec![whole(0, 1); 2], vec![whole(0, 1); 4]] {
        let store = store(&fields);
        gives(STORE_MISFIT, &Call { store, ..quiet() });
    }
}

#[test]
fn marks() {
    for field in 0..3 {
        let with = |mark, mode| {
            let mut call = Call { mode, ..quiet() };
            call.store[mark_at(field)] = mark;
            call
        };
        for mark in 0..=255 {
            let number = if of_diamond(mark) { DONE } else { MARK_WRONG };
            gives(number, &with(mark, PERMISSIVE));
            let number = if mark < 4 { DONE } else { MARK_WRONG };
            gives(number, &with(mark, STRICT));
        }
    }
}

#[test]
fn output_lengths() {
    for length in 0..length_of(3) {
        let output = vec![9; length];
        gives(OUT_SHORT, &Call { output, ..quiet() });
    }
}

#[test]
fn the_first_failing_row_in_the_order_is_told() {
    let mut call = quiet();
    call.fuel = 0;
    refused(&call, FUEL_SPENT, 0, 0);
    call.output.pop();
    gives(OUT_SHORT, &call);
    call.store[mark_at(0)] = PARTIAL;
    gives(MARK_WRONG, &call);
    call.store.push(0);
    gives(STORE_MISFIT, &call);
    let last_place = call.sheet.len() - 1;
    call.sheet[last_place] = 1;
    gives(NODE_UNUSED, &call);
    call.sheet[2] = 0;
    gives(LEVELS_WRONG, &call);
    call.sheet.push(0);
    gives(SHEET_LENGTH, &call);
    call.fuel = 1_000_001;
    gives(MODE_OR_FUEL, &call);
    call.fuel = 0;
    call.mode = 2;
    gives(MODE_OR_FUEL, &call);
}

#[test]
fn each_number_of_the_sheet_comes_before_8_and_after_10() {
    let node = |node| Parts {
        nodes: vec![node],
        ..plain()
    };
    let sheets: [(u8, Parts); 7] = [
        (LEVELS_WRONG, Parts::of(&[0], 1, skip())),
        (COUNT_OUTSIDE, Parts::of(&[1], 0, skip())),
        (NODE_UNKNOWN, node([10, 0, 0, 0, 0])),
        (NODE_UNUSED, node([5, 0, 0, 0, 1])),
        (NODE_RANGE, node([1, 0, 2, 0, 0])),
        (NOT_USED_ONCE, Parts::of(&[1], 1, constant(0))),
        (TOO_DEEP, Parts::of(&[1], 1, deep(65))),
    ];
    for (number, parts) in sheets {
        let mut call = Call {
            sheet: parts.bytes(),
            store: vec![],
            output: vec![],
            ..quiet()
        };
        gives(number, &call);
        call.mode = 2;
        gives(MODE_OR_FUEL, &call);
    }
}

#[test]
fn the_place_of_a_faulty_node_is_told() {
    let sheet = Parts::of(&[1], 1, assign(1, constant(0)));
    let call = call(&sheet, &[whole(0, 1)], STRICT, 64);
    refused(&call, NODE_RANGE, 1, 0);
}

/// Sequences, each the first command of the next.
fn deep(depth: usize) -> Tree {
    (1..depth).fold(skip(), |first, _| then(first, skip()))
}

#[test]
fn depth_64_is_run() {
    for (depth, number) in [(64, DONE), (65, TOO_DEEP)] {
        let sheet = Parts::of(&[1], 1, deep(depth));
        gives(number, &call(&sheet, &[whole(0, 1)], STRICT, 64));
    }
}
