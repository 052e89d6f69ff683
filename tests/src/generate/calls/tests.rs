//! What the generator of calls promises, and what must hold of the model's run
//! on any call: fuel beyond the units changes nothing, strict runs are permissive
//! runs.

use super::damage::Damage;
use super::{call_case, runnable, runnable_case, with_damages, CallCase, Expected};
use crate::compare::calls::Compared;
use crate::generate::tests::faults_come_up_together;
use crate::generate::write;
use crate::model::hand_out::asked;
use crate::model::number::*;
use crate::model::rules::{DOCUMENT, MOST_FUEL};
use crate::model::run::{Mode, Start};
use crate::model::tree::depths;
use crate::model::{load, run, Answer, Call, HandOut};
use crate::random::Random;

#[test]
fn sheets_made_to_be_run_are_taken() {
    for index in 0..5_000 {
        let sheet = runnable::sheet(&mut Random::of_call(21, index));
        let bytes = write::bytes(&sheet);
        assert_eq!(load(&bytes).number, DONE, "{sheet:?}");
    }
}

#[test]
fn each_damage_alone_brings_about_its_number() {
    each_damage_brings_its_number::<Call>();
    each_damage_brings_its_number::<HandOut>();
}

fn each_damage_brings_its_number<C: Compared>() {
    for damage in C::GROUPS.iter().copied().flatten() {
        let done = (0..200).filter(|&index| brings_its_number::<C>(damage, index));
        assert!(done.count() > 50, "{} seldom fits", damage.name);
    }
}

/// Whether the damage fits a call; its number is then checked.
fn brings_its_number<C: Compared>(damage: &Damage<C>, index: u64) -> bool {
    let random = &mut Random::of_call(22, index);
    let sheet = runnable_case(random);
    let CallCase { call, expected } = with_damages(sheet, vec![damage], random);
    let number = call.outcome().answer.number;
    assert!(expected.allows(number), "{} at {index}", damage.name);
    expected == Expected::Number(damage.number)
}

#[test]
fn faulty_nodes_come_up_together() {
    let of_run = (0..60_000).map(|index| call_case::<Call>(27, index).call.sheet);
    faults_come_up_together(of_run, 5);
    let of_hand_out = (0..60_000).map(|index| call_case::<HandOut>(28, index).call.sheet);
    faults_come_up_together(of_hand_out, 5);
}

/// Whether some hand-out that is answered, or refused with 18, is so.
fn hand_out_comes_up(so: impl Fn(&HandOut, Answer) -> bool) -> bool {
    let calls = (0..20_000).map(|index| call_case::<HandOut>(26, index).call);
    calls
        .map(|call| (call.outcome().answer, call))
        .filter(|(answer, _)| matches!(answer.number, DONE | PARTIAL_ASKED))
        .any(|(answer, call)| so(&call, answer))
}

#[test]
fn requests_of_every_kind_come_up() {
    let count = |call: &HandOut| asked(&call.request).count();
    for asked in [0, 1, 63, 64] {
        assert!(hand_out_comes_up(|call, answer| {
            count(call) == asked && answer.number == DONE
        }));
    }
    for places in [0..1, 1..2, 32..63, 63..64] {
        assert!(hand_out_comes_up(|_, answer| {
            answer.number == PARTIAL_ASKED && places.contains(&answer.place)
        }));
    }
    assert!(hand_out_comes_up(|call, _| {
        asked(&call.request).any(|field| field > 32)
    }));
    assert!(hand_out_comes_up(|call, _| call.reader == 15));
}

/// The calls that pass all checks, with what they start from.
fn starts(count: u64) -> impl Iterator<Item = (Call, Start)> {
    let calls = (0..count).map(|index| call_case::<Call>(23, index).call);
    calls.filter_map(|call| {
        let start = Start::checked(&DOCUMENT, &call).ok()?;
        Some((call, start))
    })
}

/// Whether some call that runs is so.
fn comes_up(so: impl Fn(&Call, &Start, Answer) -> bool) -> bool {
    starts(60_000).any(|(call, start)| so(&call, &start, run(&call).answer))
}

#[test]
fn long_runs_come_up() {
    assert!(comes_up(|_, _, answer| answer.units == MOST_FUEL));
    assert!(comes_up(
        |_, _, answer| (65_536..MOST_FUEL).contains(&answer.units)
    ));
    assert!(comes_up(|call, _, answer| {
        call.fuel == MOST_FUEL && answer.number == DONE
    }));
    assert!(comes_up(
        |_, _, answer| answer.number == DONE && answer.units > 1_000
    ));
}

#[test]
fn great_sheets_are_run_far() {
    let deep = |start: &Start| depths(&start.sheet).contains(&64);
    let done = |answer: Answer| answer.number == DONE && answer.units > 20;
    assert!(comes_up(|_, start, answer| deep(start) && done(answer)));
    let long = |start: &Start| start.sheet.nodes.len() > 256;
    assert!(comes_up(|_, start, answer| long(start) && done(answer)));
    assert!(comes_up(|_, start, answer| {
        start.sheet.fields.len() > 32 && done(answer)
    }));
    assert!(comes_up(|_, start, answer| {
        start.sheet.levels.count() == 16 && done(answer)
    }));
}

#[test]
fn every_operator_stops_and_ends_runs() {
    let has = |start: &Start, number: u8| {
        let mut nodes = start.sheet.nodes.iter();
        nodes.any(|node| node.kind == 2 && node.operator == number)
    };
    for number in 0..10 {
        assert!(comes_up(|_, start, answer| {
            answer.number == DONE && has(start, number)
        }));
    }
    let stops = |start: &Start, answer: Answer, number: u8, stop: u8| {
        let place = usize::from(answer.place);
        answer.number == stop && start.sheet.nodes[place].operator == number
    };
    let out_of_range = (0..4).map(|number| (number, OUT_OF_RANGE));
    let divisor = (3..5).map(|number| (number, DIVISOR_ZERO));
    for (number, stop) in out_of_range.chain(divisor) {
        assert!(comes_up(|_, start, answer| {
            stops(start, answer, number, stop)
        }));
    }
}

#[test]
fn fuel_beyond_the_units_changes_nothing() {
    for (call, _) in starts(4_000) {
        let right = run(&call);
        let Answer { number, units, .. } = right.answer;
        if number == FUEL_SPENT {
            assert_eq!(units, call.fuel);
            continue;
        }
        let with = |fuel| {
            run(&Call {
                fuel,
                ..call.clone()
            })
        };
        assert_eq!(with(units), right);
        assert_eq!(with(units + 1), right);
        let less = with(units - 1).answer;
        assert_eq!((less.number, less.units), (FUEL_SPENT, units - 1));
    }
}

#[test]
fn strict_runs_are_permissive_runs_without_partial_marks() {
    for (call, start) in starts(8_000).filter(|(_, start)| start.mode == Mode::Strict) {
        let strict = run(&call);
        let permissive = run(&Call { mode: 1, ..call });
        if strict.answer.number != NOT_BELOW {
            assert_eq!(strict, permissive);
        }
        assert_ne!(strict.answer.number, PARTIAL_TEST);
        let end = start.run(&DOCUMENT);
        assert!(end.store.fields.iter().all(|field| !field.mark.partial));
    }
}
