//! The input of the `trials` program: document 01's trials of load that run
//! and are compared, each limit with one more, a sheet for each number, and the
//! order of what is wrong with nodes. A trial is its name's length (1 byte), the
//! name, the sheet's length (2 bytes), the sheet.

use crate::parts::{name, node, operator, plain, with_nodes, SKIP};
use crate::samples;
use beltuqash_tests::generate::write::bytes;
use beltuqash_tests::model::levels::Levels;
use beltuqash_tests::model::sheet::{Name, Node, Sheet};
use std::collections::VecDeque;

/// All trials, one after another.
pub fn input() -> Vec<u8> {
    trials().iter().flat_map(record).collect()
}

fn trials() -> Vec<Trial> {
    [document(), limits(), one_of_each(), faulty_nodes()].concat()
}

fn record((name, sheet): &Trial) -> Vec<u8> {
    let name_length = u8::try_from(name.len()).expect("a short name");
    let sheet_length = u16::try_from(sheet.len()).expect("a sheet of two length bytes");
    let mut record = vec![name_length];
    record.extend(name.as_bytes());
    record.extend(sheet_length.to_le_bytes());
    record.extend(sheet);
    record
}

type Trial = (&'static str, Vec<u8>);

/// The sheets and rows that document 01 names.
fn document() -> Vec<Trial> {
    vec![
        ("the runner's sheet", bytes(&samples::runners())),
        ("one level, row 1", bytes(&with_rows(&[1]))),
        ("one level, row 0", bytes(&with_rows(&[0]))),
        ("rows 3, 2", bytes(&with_rows(&[3, 2]))),
        ("rows 15, 10, 12, 8", bytes(&with_rows(&[15, 10, 12, 8]))),
        ("rows 7, 2, 4", bytes(&with_rows(&[7, 2, 4]))),
    ]
}

/// Each limit, and one more.
fn limits() -> Vec<Trial> {
    vec![
        ("16 levels", bytes(&with_rows(&chain(16)))),
        ("17 levels", bytes(&with_rows(&chain(17)))),
        ("64 fields", bytes(&with_fields(64))),
        ("65 fields", bytes(&with_fields(65))),
        ("256 constants", bytes(&with_constants(256))),
        ("257 constants", bytes(&with_constants(257))),
        ("1024 nodes", bytes(&with_nodes(bushy(1024)))),
        ("1025 nodes", bytes(&with_nodes(bushy(1025)))),
        ("depth 64", bytes(&with_nodes(nested(64)))),
        ("depth 65", bytes(&with_nodes(nested(65)))),
    ]
}

/// A small sheet for each number, and what ends too soon.
fn one_of_each() -> Vec<Trial> {
    let whole = bytes(&plain());
    let two_fields = |other: Name| {
        bytes(&Sheet {
            fields: vec![name("q"), other],
            ..plain()
        })
    };
    vec![
        ("no byte", vec![]),
        ("one byte", vec![1]),
        ("one byte less", whole[..whole.len() - 1].to_vec()),
        ("one byte more", [&whole[..], &[0]].concat()),
        ("a count of 65535", vec![255; 8]),
        ("a name that begins with a digit", two_fields(name("1q"))),
        ("a name twice", two_fields(name("q"))),
        ("kind 10", bytes(&with_nodes(vec![node(10, [0, 0, 0])]))),
        (
            "an unused place",
            bytes(&with_nodes(vec![node(5, [0, 0, 1])])),
        ),
        (
            "its own child",
            bytes(&with_nodes(vec![node(7, [0, 0, 0])])),
        ),
        (
            "a command for an expression",
            bytes(&with_nodes(vec![SKIP, node(6, [0, 0, 0])])),
        ),
        (
            "a child twice",
            bytes(&with_nodes(vec![SKIP, node(7, [0, 0, 0])])),
        ),
        ("a node of nobody", bytes(&with_nodes(vec![SKIP, SKIP]))),
        (
            "an expression last",
            bytes(&with_nodes(vec![node(1, [0, 0, 0])])),
        ),
    ]
}

/// What is wrong with a node, the order within a node, and the lowest node first.
fn faulty_nodes() -> Vec<Trial> {
    let field = node(1, [0, 0, 0]);
    let trial = |name, nodes| (name, bytes(&with_nodes(nodes)));
    vec![
        trial(
            "operator 10",
            vec![field, field, operator(2, 10, [0, 1, 0]), node(6, [0, 2, 0])],
        ),
        trial(
            "kind 10 with all else wrong",
            vec![operator(10, 10, [9, 9, 9])],
        ),
        trial(
            "operator byte 10 in a skip",
            vec![operator(5, 10, [0, 0, 0])],
        ),
        trial("a constant that is not there", vec![node(0, [0, 0, 0])]),
        trial("a field that is not there", vec![node(1, [1, 0, 0])]),
        trial("a later child", vec![node(3, [1, 0, 0]), SKIP]),
        trial(
            "an expression for a command",
            vec![field, node(7, [0, 0, 0])],
        ),
        trial(
            "19 before 20 in a node",
            vec![field, operator(2, 10, [0, 0, 1])],
        ),
        trial("20 before 21 in a node", vec![node(1, [1, 0, 1])]),
        trial("21 before 22 in a node", vec![SKIP, node(6, [1, 0, 0])]),
        trial(
            "22 in a node before 19 in the next",
            vec![SKIP, node(3, [0, 0, 0]), node(10, [0, 0, 0])],
        ),
        trial("20 in the last of 1024 nodes", last_unused()),
    ]
}

pub fn with_rows(rows: &[u16]) -> Sheet {
    Sheet {
        levels: Levels {
            rows: rows.to_vec(),
        },
        ..plain()
    }
}

/// Level i lies at or below each level from i on.
pub fn chain(levels: u32) -> Vec<u16> {
    let bits = levels.min(16);
    let all = ((1u32 << bits) - 1) as u16;
    (0..levels)
        .map(|i| all & all.checked_shl(i).unwrap_or(0))
        .collect()
}

fn with_fields(fields: usize) -> Sheet {
    Sheet {
        fields: (0..fields).map(|i| name(&format!("f{i}"))).collect(),
        ..plain()
    }
}

fn with_constants(constants: i32) -> Sheet {
    Sheet {
        constants: (0..constants).collect(),
        ..plain()
    }
}

/// Skips and, for an even number, an assignment, paired by sequences level by level: flat for any number of nodes.
fn bushy(nodes: u16) -> Vec<Node> {
    let mut all = vec![];
    let mut unused = VecDeque::new();
    if nodes % 2 == 0 {
        all.push(node(1, [0, 0, 0]));
        all.push(node(6, [0, 0, 0]));
        unused.push_back(1);
    }
    while all.len() + unused.len() < usize::from(nodes) {
        unused.push_back(all.len() as u16);
        all.push(SKIP);
    }
    while let (Some(first), Some(second)) = (unused.pop_front(), unused.pop_front()) {
        unused.push_back(all.len() as u16);
        all.push(node(7, [first, second, 0]));
    }
    all
}

/// The most nodes, all right but for the last one's unused place.
pub fn last_unused() -> Vec<Node> {
    let mut nodes = bushy(1024);
    nodes[1023].places[2] = 1;
    nodes
}

/// Sequences, each the second command of the next: `depth` nodes from root to leaf.
pub fn nested(depth: u16) -> Vec<Node> {
    let mut nodes = vec![SKIP];
    for _ in 1..depth {
        let inner = nodes.len() as u16 - 1;
        nodes.push(SKIP);
        nodes.push(node(7, [inner + 1, inner, 0]));
    }
    nodes
}

#[cfg(test)]
mod tests {
    use super::*;
    use beltuqash_tests::model::load;

    /// A line for each trial: its name, and number, place and units of load.
    #[test]
    fn the_model_answers_what_is_stored() {
        let lines = trials().into_iter().map(|(name, sheet)| {
            let answer = load(&sheet);
            format!(
                "{name}: {} {} {}\n",
                answer.number, answer.place, answer.units
            )
        });
        let stored = include_str!("../../../../crates/trials/stdout");
        assert_eq!(lines.collect::<String>(), stored);
    }
}
