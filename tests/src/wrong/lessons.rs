//! The pupils' monitors of docs/TEACHING.md on its sheets: what the page's tables
//! tell of each permissive run is what the wrong runner or hand-out does.

use super::calls::Wrong;
use super::{hand_outs, runners};
use crate::by_hand::{store, whole, PERMISSIVE};
use crate::compare::calls::Compared;
use crate::compare::effect::Effect;
use crate::model::hand_out::rules::length;
use crate::model::hand_out::{answered, request};
use crate::model::marks::Mark;
use crate::model::store::entries;
use crate::model::{Call, HandOut};

const PAGE: &str = include_str!("../../../docs/TEACHING.md");

/// A pupil's monitor, by its fault, and the sheet and reader that show it.
struct Lesson {
    fault: &'static str,
    sheet: &'static [u8],
    reader: u32,
}

const A_KEPT: Lesson = Lesson {
    fault: "A kept instead of the meet",
    sheet: include_bytes!("../../../examples/listing3.sheet"),
    reader: 2,
};

const OLD_CONTEXT: Lesson = Lesson {
    fault: "the old context in later rounds of a while",
    sheet: include_bytes!("../../../examples/rounds.sheet"),
    reader: 0,
};

const WITHHELD: Lesson = Lesson {
    fault: "a partial field at or below the reader withheld",
    sheet: include_bytes!("../../../examples/sealed.sheet"),
    reader: 0,
};

const WITHHELD_FROM_OFFICE: Lesson = Lesson {
    sheet: include_bytes!("../../../examples/floor.sheet"),
    reader: 1,
    ..WITHHELD
};

const NEVER_CLEAN: Lesson = Lesson {
    fault: "no context lies below a partial field",
    sheet: include_bytes!("../../../examples/clean.sheet"),
    reader: 0,
};

/// The field that the reader asks for: w, told, q, floor and p.
const ASKED: usize = 1;

/// What is made of a call by the one with this fault, or by the model if none of
/// these has it.
fn effect<C: Compared>(all: Vec<Wrong<C>>, fault: &str, call: &C) -> Effect {
    match all.iter().find(|wrong| wrong.name == fault) {
        Some(wrong) => wrong.effect(call),
        None => call.right(),
    }
}

impl Lesson {
    /// The page's row for a permissive run from this store.
    fn row(&self, from: &str, fields: &[(u8, i32)]) -> String {
        let store = store(fields);
        let call = Call {
            sheet: self.sheet.to_vec(),
            output: vec![0; store.len()],
            store,
            mode: PERMISSIVE,
            fuel: 1000,
        };
        let run = effect(runners::all(), self.fault, &call);
        assert_eq!(run.word as u32, 0, "{}: done", self.fault);
        let units = run.word >> 32;
        let (mark, value) = entries(run.output()).nth(ASKED).expect("the field");
        let Mark { level, partial } = Mark::read(mark).expect("a mark");
        let mark = if partial { "partial" } else { "whole" };
        let gets = self.gets(run.output());
        format!("| {from} | {units} | {value}, {mark} at level {level} | {gets} |")
    }

    /// What the reader gets of a final store.
    fn gets(&self, store: &[u8]) -> String {
        let call = HandOut {
            sheet: self.sheet.to_vec(),
            store: store.to_vec(),
            reader: self.reader,
            request: request(&[ASKED]),
            output: vec![0; length(1)],
        };
        let handed = effect(hand_outs::all(), self.fault, &call);
        let entry = answered(handed.output()).next();
        match (handed.word, entry) {
            (0, Some((1, value))) => value.to_string(),
            (0, _) => "closed".into(),
            (number, _) => format!("no answer, number {number}"),
        }
    }
}

#[test]
fn the_page_tells_what_the_pupils_monitors_do() {
    let listing_3 = |closed| {
        let levels = [6, 2, 2, 1, 3, 4, 5];
        let values = [0, 0, 1, closed, closed, 0, 1];
        [0, 1, 2, 3, 4, 5, 6].map(|field| whole(levels[field], values[field]))
    };
    let counting = |n| [whole(1, n), whole(0, 0)];
    let sealed = |cost| [whole(0, 0), whole(0, 0), whole(1, cost)];
    let floor = |cost| [whole(0, 0), whole(1, 0), whole(2, cost)];
    let clean = |cost| [whole(1, cost), whole(0, 0)];
    let rows = [
        A_KEPT.row("xp 1, x2 1", &listing_3(1)),
        A_KEPT.row("xp 0, x2 0", &listing_3(0)),
        OLD_CONTEXT.row("n 0", &counting(0)),
        OLD_CONTEXT.row("n 2", &counting(2)),
        WITHHELD.row("cost 400", &sealed(400)),
        WITHHELD.row("cost 600", &sealed(600)),
        WITHHELD_FROM_OFFICE.row("cost 400", &floor(400)),
        WITHHELD_FROM_OFFICE.row("cost 600", &floor(600)),
        NEVER_CLEAN.row("cost 400", &clean(400)),
        NEVER_CLEAN.row("cost 600", &clean(600)),
    ];
    let of_runs = |line: &&str| line.starts_with('|') && line.contains(" at level ");
    let told: Vec<&str> = PAGE.lines().filter(of_runs).collect();
    assert_eq!(told, rows);
}
