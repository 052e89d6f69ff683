//! Judges wrong about what is told of a faulty node: the order within it, the number,
//! which node, or the answer.

use super::WrongJudge;
use crate::model::nodes::{fault_of, first_fault, first_fault_by, Law, Place, Sort, LAWS};
use crate::model::number::{NODE_SORT, NODE_UNKNOWN, NODE_UNUSED, OF_NODES};
use crate::model::sheet::Sheet;
use crate::model::Answer;
use crate::wrong::calls::Faults;

pub fn judges() -> Vec<WrongJudge> {
    let mut judges = neighbours_exchanged();
    judges.extend(laws_under_other_numbers());
    judges.extend(readings_mistaken());
    judges.extend(other_nodes_told());
    judges.extend(TOLD.iter().map(|&(name, wrong)| {
        WrongJudge::finding(name, move |sheet| first_fault(sheet).map(wrong))
    }));
    judges
}

/// Goes by these laws for nodes.
fn by(name: String, laws: Vec<Law>) -> WrongJudge {
    WrongJudge::finding(name, move |sheet| first_fault_by(&laws, sheet))
}

/// Of two numbers that follow each other, a node is looked at for the later one first.
fn neighbours_exchanged() -> Vec<WrongJudge> {
    let exchanged = |two: &[u8]| {
        let mut laws = LAWS.to_vec();
        laws.sort_by_key(|law| match law.number {
            number if number == two[0] => two[1],
            number if number == two[1] => two[0],
            number => number,
        });
        by(format!("{} before {} in a node", two[1], two[0]), laws)
    };
    OF_NODES.windows(2).map(exchanged).collect()
}

/// Each law told with each number but its own.
fn laws_under_other_numbers() -> Vec<WrongJudge> {
    let mut judges = Vec::new();
    for (at, law) in LAWS.iter().enumerate() {
        for &number in OF_NODES.iter().filter(|&&number| number != law.number) {
            let mut laws = LAWS.to_vec();
            laws[at].number = number;
            judges.push(by(format!("'{}' told as {number}", law.name), laws));
        }
    }
    judges
}

/// Asks one more law, before the law of this name.
fn asking_before(before: &str, more: Law) -> WrongJudge {
    let at = LAWS.iter().position(|law| law.name == before);
    let mut laws = LAWS.to_vec();
    laws.insert(at.expect("a law's name"), more);
    by(more.name.into(), laws)
}

/// The sort of any node that there is.
fn sort_of(sheet: &Sheet, number: u16) -> Option<Sort> {
    sheet.nodes.get(usize::from(number))?.sort()
}

fn readings_mistaken() -> Vec<WrongJudge> {
    vec![
        asking_before(
            "kind",
            Law {
                name: "any operator byte above 9 told as 19",
                number: NODE_UNKNOWN,
                holds: |sheet, number| sheet.nodes[number].operator < 10,
            },
        ),
        asking_before(
            "kind",
            Law {
                name: "an unknown kind's places told as 20",
                number: NODE_UNUSED,
                holds: |sheet, number| {
                    let node = &sheet.nodes[number];
                    node.known_kind().is_some() || node.places == [0; 3]
                },
            },
        ),
        asking_before(
            "child number",
            Law {
                name: "the sort of a child that is not lower told",
                number: NODE_SORT,
                holds: |sheet, number| {
                    let mut held = sheet.nodes[number].held();
                    held.all(|(place, held)| match place {
                        Place::Child(sort) => sort_of(sheet, held).is_none_or(|is| is == sort),
                        _ => true,
                    })
                },
            },
        ),
    ]
}

fn other_nodes_told() -> Vec<WrongJudge> {
    vec![
        WrongJudge::finding("the highest faulty node told", |sheet| {
            let mut numbers = (0..sheet.nodes.len()).rev();
            numbers.find_map(|number| fault_of(&LAWS, sheet, number))
        }),
        WrongJudge::finding("all nodes looked at for 19 first", |sheet| {
            let unknown = LAWS.iter().filter(|law| law.number == NODE_UNKNOWN);
            let unknown: Vec<Law> = unknown.copied().collect();
            first_fault_by(&unknown, sheet).or_else(|| first_fault(sheet))
        }),
    ]
}

/// What is told for the right answer of a faulty node.
pub const TOLD: Faults<fn(Answer) -> Answer> = &[
    ("5 for a faulty node, as before", |_| Answer::plain(5)),
    ("5 at a faulty node", |answer| Answer {
        number: 5,
        ..answer
    }),
    ("no place of a faulty node", |answer| {
        Answer::plain(answer.number)
    }),
    ("faulty nodes counted from 1", |answer| Answer {
        place: answer.place + 1,
        ..answer
    }),
    ("the low byte of a faulty node's number", |answer| Answer {
        place: answer.place % 256,
        ..answer
    }),
    ("a unit on a faulty node", |answer| Answer {
        units: 1,
        ..answer
    }),
];
