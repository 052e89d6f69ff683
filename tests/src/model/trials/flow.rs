//! Trials of marks, contexts and units: the document's flag sheet, its diamond,
//! loops, and document 002's listing 3.

use super::trees::*;
use super::*;
use crate::model::agree::stores_agree;
use crate::model::hand_out::rules::length;
use crate::model::hand_out::{answer, request};
use crate::model::store::Store;

/// flag := 0; q := 0; if cost < 500 then flag := 1 else skip; if `last` then
/// q := 1 else skip.
fn flag_sheet(last: Tree) -> Parts {
    let cheap = operator(LESS, field(COST), constant(500));
    let raise_flag = branch(cheap, assign(FLAG, constant(1)), skip());
    let tell = branch(last, assign(Q, constant(1)), skip());
    let rest = then(assign(Q, constant(0)), then(raise_flag, tell));
    Parts::of(&[3, 2], 3, then(assign(FLAG, constant(0)), rest))
}

const FLAG: u16 = 0;
const Q: u16 = 1;
const COST: u16 = 2;

fn plain_flag_sheet() -> Parts {
    flag_sheet(operator(EQUAL, field(FLAG), constant(0)))
}

fn sealed_flag_sheet() -> Parts {
    flag_sheet(operator(EQUAL, seal(field(FLAG)), constant(0)))
}

/// The flag sheet called at this cost.
fn at_cost(sheet: &Parts, cost: i32, mode: u32, fuel: u32) -> Call {
    let fields = [whole(0, 7), whole(0, 7), whole(1, cost)];
    call(sheet, &fields, mode, fuel)
}

#[test]
fn the_flag_sheet_at_cost_600() {
    let sheet = plain_flag_sheet();
    for mode in [STRICT, PERMISSIVE] {
        for fuel in [6, 7, 1_000_000] {
            let call = at_cost(&sheet, 600, mode, fuel);
            done(&call, 6, &[whole(0, 0), whole(0, 1), whole(1, 600)]);
        }
        refused(&at_cost(&sheet, 600, mode, 5), FUEL_SPENT, 15, 5);
        refused(&at_cost(&sheet, 600, mode, 4), FUEL_SPENT, 17, 4);
        refused(&at_cost(&sheet, 600, mode, 0), FUEL_SPENT, 1, 0);
    }
}

#[test]
fn the_flag_sheet_at_cost_400() {
    let sheet = plain_flag_sheet();
    refused(&at_cost(&sheet, 400, PERMISSIVE, 9), PARTIAL_TEST, 17, 5);
    refused(&at_cost(&sheet, 400, STRICT, 9), NOT_BELOW, 8, 4);
    // Each stop spends its unit first.
    refused(&at_cost(&sheet, 400, PERMISSIVE, 4), FUEL_SPENT, 17, 4);
    refused(&at_cost(&sheet, 400, STRICT, 3), FUEL_SPENT, 8, 3);
}

#[test]
fn the_flag_sheet_with_a_seal() {
    let sheet = sealed_flag_sheet();
    let at_400 = at_cost(&sheet, 400, PERMISSIVE, 9);
    done(&at_400, 6, &[partial(0, 1), whole(0, 0), whole(1, 400)]);
    let at_600 = at_cost(&sheet, 600, PERMISSIVE, 9);
    done(&at_600, 6, &[whole(0, 0), partial(0, 1), whole(1, 600)]);
    refused(&at_cost(&sheet, 600, STRICT, 9), NOT_BELOW, 16, 6);
}

/// What a reader gets who asks for these fields after a run.
fn asked_for(call: &Call, reader: u32, fields: &[u16]) -> Outcome {
    let fields: Vec<usize> = fields.iter().map(|&field| field.into()).collect();
    hand_out(&HandOut {
        sheet: call.sheet.clone(),
        store: run(call).written,
        reader,
        request: request(&fields),
        output: vec![0; length(fields.len())],
    })
}

#[test]
fn a_request_for_q_after_the_flag_sheet_with_a_seal() {
    let sheet = sealed_flag_sheet();
    let asked_for_q = |cost| asked_for(&at_cost(&sheet, cost, PERMISSIVE, 9), 0, &[Q]);
    assert_eq!(asked_for_q(400).answer, Answer::plain(DONE));
    assert_eq!(asked_for_q(400).written, answer(&[(1, 0)]));
    assert_eq!(asked_for_q(600).answer, Answer::plain(PARTIAL_ASKED));
}

/// A chain of three levels and fields f0 to f2 at them: f0 := 7; if f2 < 500 then
/// f1 := 1 else skip. At 400 f1 ends partial at level 1.
#[test]
fn a_field_left_partial_is_withheld_from_readers_below_it() {
    let cheap = operator(LESS, field(2), constant(500));
    let lower = branch(cheap, assign(1, constant(1)), skip());
    let sheet = Parts::of(&[7, 6, 4], 3, then(assign(0, constant(7)), lower));
    let at = |cost| {
        let fields = [whole(0, 0), whole(1, 0), whole(2, cost)];
        call(&sheet, &fields, PERMISSIVE, 9)
    };
    done(&at(400), 3, &[whole(0, 7), partial(1, 1), whole(2, 400)]);
    done(&at(600), 3, &[whole(0, 7), whole(1, 0), whole(2, 600)]);
    let alike = asked_for(&at(400), 0, &[0, 1, 2]);
    assert_eq!(alike.written, answer(&[(1, 7), (0, 0), (0, 0)]));
    assert_eq!(alike, asked_for(&at(600), 0, &[0, 1, 2]));
    let refused = Answer {
        place: 1,
        ..Answer::plain(PARTIAL_ASKED)
    };
    for (reader, cost) in [(1, (0, 0)), (2, (1, 600))] {
        assert_eq!(asked_for(&at(400), reader, &[0, 1, 2]).answer, refused);
        let told = asked_for(&at(600), reader, &[0, 1, 2]).written;
        assert_eq!(told, answer(&[(1, 7), (1, 0), cost]));
    }
}

#[test]
fn the_runners_example() {
    let example = Call {
        sheet: EXAMPLE.to_vec(),
        store: vec![0x01, 0x00, 0x01, 0x29, 0x00, 0x00, 0x00],
        mode: PERMISSIVE,
        fuel: 9,
        output: vec![0; 7],
    };
    done(&example, 1, &[whole(1, 42)]);
}

const DIAMOND: [u16; 4] = [15, 10, 12, 8];

/// if f0 then f1 := f2 else skip, in the diamond: f1 afterwards.
#[track_caller]
fn assigned(context: u8, into: (u8, i32), value: (u8, i32), after: (u8, i32)) {
    let command = branch(field(0), assign(1, field(2)), skip());
    let sheet = Parts::of(&DIAMOND, 3, command);
    let test = whole(context, 1);
    let call = call(&sheet, &[test, into, value], PERMISSIVE, 2);
    done(&call, 2, &[test, after, value]);
}

#[test]
fn the_documents_marks_in_the_diamond() {
    let sum = operator(PLUS, field(0), field(1));
    let sheet = Parts::of(&DIAMOND, 3, assign(2, sum));
    let fields = [whole(1, 4), partial(2, 5), whole(0, 6)];
    let joined = [whole(1, 4), partial(2, 5), partial(3, 9)];
    done(&call(&sheet, &fields, PERMISSIVE, 1), 1, &joined);

    assigned(1, whole(2, 5), whole(0, 6), partial(0, 6));
    assigned(1, partial(1, 5), whole(2, 6), whole(3, 6));
    assigned(3, partial(1, 5), whole(0, 6), partial(1, 6));
}

#[test]
fn assigned_marks() {
    // Partial only if m is.
    assigned(0, whole(0, 5), partial(2, 6), partial(2, 6));
    assigned(1, whole(1, 5), partial(2, 6), partial(3, 6));
    assigned(0, partial(0, 5), whole(0, 6), whole(0, 6));
    assigned(1, partial(3, 5), whole(0, 6), whole(1, 6));
    // Whatever m is.
    assigned(2, partial(1, 5), partial(3, 6), partial(0, 6));
    assigned(3, whole(2, 5), whole(3, 6), partial(2, 6));
    assigned(1, whole(0, 5), whole(1, 6), partial(0, 6));
}

#[test]
fn marks_of_expressions() {
    // Level 1 is BOT and level 0 is TOP.
    let worked_out = |expression, fields: [(u8, i32); 2], after| {
        let sheet = Parts::of(&[1, 3], 2, assign(1, expression));
        done(
            &call(&sheet, &fields, PERMISSIVE, 1),
            1,
            &[fields[0], after],
        );
    };
    worked_out(constant(3), [whole(0, 1), whole(0, 2)], whole(1, 3));
    worked_out(field(0), [partial(0, 1), whole(0, 2)], partial(0, 1));
    worked_out(not(field(0)), [partial(0, 1), whole(0, 2)], partial(0, 0));
    worked_out(not(field(0)), [whole(0, 1), whole(0, 2)], whole(0, 0));
    worked_out(seal(field(0)), [partial(1, 1), whole(0, 2)], whole(0, 1));
    worked_out(seal(field(0)), [whole(1, 1), whole(1, 2)], whole(0, 1));
    let both = || operator(OR, field(0), field(1));
    worked_out(both(), [partial(0, 1), whole(1, 2)], partial(0, 1));
    worked_out(both(), [whole(1, 1), partial(1, 2)], partial(1, 1));
    worked_out(both(), [whole(0, 1), whole(1, 2)], whole(0, 1));
}

#[test]
fn a_partial_test_stops_an_if_and_a_while() {
    let if_partial = branch(field(0), skip(), skip());
    let while_partial = rounds(field(0), skip());
    for (command, last) in [(if_partial, 3), (while_partial, 2)] {
        let sheet = Parts::of(&[3, 2], 1, command);
        let with = |fuel| call(&sheet, &[partial(0, 0)], PERMISSIVE, fuel);
        refused(&with(9), PARTIAL_TEST, last, 1);
        refused(&with(0), FUEL_SPENT, last, 0);
    }
}

#[test]
fn the_old_context_returns_after_the_command() {
    let write_low = || assign(1, constant(5));
    let fields = [whole(1, 0), whole(0, 4)];
    for first in [branch(field(0), skip(), skip()), rounds(field(0), skip())] {
        let sheet = Parts::of(&[3, 2], 2, then(first, write_low()));
        let Outcome { written, .. } = run(&call(&sheet, &fields, STRICT, 9));
        assert_eq!(written, store(&[whole(1, 0), whole(0, 5)]));
    }
    let inner = branch(field(0), skip(), skip());
    let outer = branch(constant(1), then(inner, write_low()), skip());
    let sheet = Parts::of(&[3, 2], 2, outer);
    done(
        &call(&sheet, &fields, STRICT, 9),
        4,
        &[whole(1, 0), whole(0, 5)],
    );
}

#[test]
fn each_test_of_a_while_spends_a_unit() {
    let one_more = assign(0, operator(PLUS, field(0), constant(1)));
    let sheet = Parts::of(
        &[1],
        1,
        rounds(operator(LESS, field(0), constant(3)), one_more),
    );
    let from_0 = |fuel| call(&sheet, &[whole(0, 0)], STRICT, fuel);
    done(&from_0(7), 7, &[whole(0, 3)]);
    // Nodes: 0 to 2 the test, 3 to 5 the sum, 6 the assignment, 7 the while.
    refused(&from_0(6), FUEL_SPENT, 7, 6);
    refused(&from_0(5), FUEL_SPENT, 6, 5);
    refused(&from_0(0), FUEL_SPENT, 7, 0);
}

#[test]
fn a_while_keeps_its_context_for_later_rounds() {
    // while f0 < 2 do (f1 := 9; f0 := f0 + 1), f0 closed and f1 open.
    let one_more = assign(0, operator(PLUS, field(0), constant(1)));
    let body = then(assign(1, constant(9)), one_more);
    let sheet = Parts::of(
        &[3, 2],
        2,
        rounds(operator(LESS, field(0), constant(2)), body),
    );
    let call = call(&sheet, &[whole(1, 0), whole(0, 0)], PERMISSIVE, 9);
    done(&call, 7, &[whole(1, 2), partial(0, 9)]);
}

#[test]
fn an_expression_is_worked_out_before_its_context_is_judged() {
    let command = branch(
        field(0),
        assign(1, operator(DIVIDE, constant(1), constant(0))),
        skip(),
    );
    let sheet = Parts::of(&[3, 2], 2, command);
    let call = call(&sheet, &[whole(1, 1), whole(0, 0)], STRICT, 9);
    refused(&call, DIVISOR_ZERO, 3, 2);
}

#[test]
fn fuel_of_a_million_is_taken_and_used_up() {
    let sheet = Parts::of(&[1], 1, rounds(constant(1), skip()));
    let with = |fuel| call(&sheet, &[whole(0, 0)], STRICT, fuel);
    refused(&with(1_000_000), FUEL_SPENT, 2, 1_000_000);
    refused(&with(999_999), FUEL_SPENT, 1, 999_999);
    refused(&with(1_000_001), MODE_OR_FUEL, 0, 0);
    refused(&with(0), FUEL_SPENT, 2, 0);
    let skip = Parts::of(&[1], 1, skip());
    done(
        &call(&skip, &[whole(0, 3)], STRICT, 1_000_000),
        1,
        &[whole(0, 3)],
    );
    refused(&call(&skip, &[whole(0, 3)], STRICT, 0), FUEL_SPENT, 0, 0);
}

/// Document 002's listing 3 over the lattice of its figure 7: L at the bottom,
/// L1 and L' below M1, L' and L2 below M2, H at the top.
struct Listing3 {
    sheet: Parts,
}

const L1: u8 = 1;
const LOWER: u8 = 2;
const L2: u8 = 3;
const M1: u8 = 4;
const M2: u8 = 5;
const HIGH: u8 = 6;

fn listing_3() -> Listing3 {
    let rows = [
        0b111_1111, 0b101_0010, 0b111_0100, 0b110_1000, 0b101_0000, 0b110_0000, 0b100_0000,
    ];
    let (z, w, x, x1, x2, y1, y2) = (0, 1, 2, 3, 4, 5, 6);
    let choose = branch(field(x), assign(z, field(y1)), assign(z, field(y2)));
    let first = branch(field(x1), assign(z, field(x1)), skip());
    let second = branch(not(field(x2)), assign(z, field(x2)), skip());
    let tell = branch(field(z), assign(w, field(z)), skip());
    let command = then(choose, then(first, then(second, tell)));
    Listing3 {
        sheet: Parts::of(&rows, 7, command),
    }
}

impl Listing3 {
    /// A call where x' and x2 are both this.
    fn call(&self, closed: i32) -> Call {
        let levels = [HIGH, L1, LOWER, L1, L2, M1, M2];
        let values = [5, 0, closed, 1, closed, 0, 1];
        let fields: Vec<(u8, i32)> = levels.into_iter().zip(values).collect();
        call(&self.sheet, &fields, PERMISSIVE, 20)
    }

    fn last_if(&self) -> u16 {
        let last = self.sheet.nodes.iter().rposition(|node| node[0] == 8);
        last.expect("an if") as u16
    }
}

#[test]
fn listing_3_does_not_leak() {
    let listing = listing_3();
    let end = [
        whole(L1, 1),
        whole(L1, 1),
        whole(LOWER, 1),
        whole(L1, 1),
        whole(L2, 1),
        whole(M1, 0),
        whole(M2, 1),
    ];
    done(&listing.call(1), 8, &end);
    refused(&listing.call(0), PARTIAL_TEST, listing.last_if(), 7);
}

/// Two partial fields agree whatever their values. A seal makes them whole TOP,
/// so for a reader at TOP, and for no other, stores that agree may end in stores
/// that don't.
#[test]
fn a_seal_shows_a_partial_field_to_a_reader_at_top() {
    let sheet = Parts::of(&[3, 2], 2, assign(1, seal(field(0))));
    let ends = [3, 4].map(|value| {
        let call = call(&sheet, &[partial(0, value), whole(0, 0)], PERMISSIVE, 1);
        let sheet = judged(&call.sheet).expect("taken");
        let start = Store::read(&sheet, &call.store);
        (
            sheet.levels.clone(),
            start,
            Store::read(&sheet, &run(&call).written),
        )
    });
    let [(levels, start, end), (_, other_start, other_end)] = ends;
    for (reader, agree) in [(0, true), (1, false)] {
        assert!(stores_agree(&levels, reader, &start, &other_start));
        assert_eq!(stores_agree(&levels, reader, &end, &other_end), agree);
    }
}
