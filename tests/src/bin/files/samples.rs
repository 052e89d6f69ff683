//! The sample sheets of examples/.

use crate::parts::{name, node, operator, plain, with_nodes, SKIP};
use beltuqash_tests::model::sheet::{Node, Sheet};

/// The samples by the names of their files.
pub fn all() -> Vec<(&'static str, Sheet)> {
    vec![
        ("faulty-node.sheet", faulty_node()),
        ("flag.sheet", flag()),
        ("name-twice.sheet", name_twice()),
        ("runner.sheet", runners()),
        ("sealed.sheet", sealed_flag()),
    ]
}

/// The sheet of document 01's runner: q := q + 1.
pub fn runners() -> Sheet {
    let nodes = vec![
        node(0, [0, 0, 0]),
        node(1, [0, 0, 0]),
        operator(2, 0, [1, 0, 0]),
        node(6, [0, 2, 0]),
    ];
    Sheet {
        constants: vec![1],
        ..with_nodes(nodes)
    }
}

/// The flag sheet: flag := 0; q := 0; if cost < 500 then flag := 1 else skip;
/// if flag = 0 then q := 1 else skip.
pub fn flag() -> Sheet {
    flag_with(&[
        node(1, [FLAG, 0, 0]),
        node(0, [ZERO, 0, 0]),
        operator(2, 5, [11, 12, 0]),
    ])
}

/// The same with seal(flag) = 0 in the last test.
pub fn sealed_flag() -> Sheet {
    flag_with(&[
        node(1, [FLAG, 0, 0]),
        node(4, [11, 0, 0]),
        node(0, [ZERO, 0, 0]),
        operator(2, 5, [12, 13, 0]),
    ])
}

const FLAG: u16 = 0;
const Q: u16 = 1;
const COST: u16 = 2;

const ZERO: u16 = 0;
const ONE: u16 = 1;
const FIVE_HUNDRED: u16 = 2;

/// The flag sheet with this last test, whose nodes are 11 and on.
fn flag_with(test: &[Node]) -> Sheet {
    let mut nodes = vec![
        node(0, [ZERO, 0, 0]),
        node(6, [FLAG, 0, 0]),
        node(0, [ZERO, 0, 0]),
        node(6, [Q, 2, 0]),
        node(1, [COST, 0, 0]),
        node(0, [FIVE_HUNDRED, 0, 0]),
        operator(2, 6, [4, 5, 0]),
        node(0, [ONE, 0, 0]),
        node(6, [FLAG, 7, 0]),
        SKIP,
        node(8, [6, 8, 9]),
    ];
    nodes.extend(test);
    let next = nodes.len() as u16;
    nodes.extend([
        node(0, [ONE, 0, 0]),
        node(6, [Q, next, 0]),
        SKIP,
        node(8, [next - 1, next + 1, next + 2]),
        node(7, [10, next + 3, 0]),
        node(7, [3, next + 4, 0]),
        node(7, [1, next + 5, 0]),
    ]);
    Sheet {
        fields: vec![name("flag"), name("q"), name("cost")],
        constants: vec![0, 1, 500],
        ..with_nodes(nodes)
    }
}

/// The flag sheet with field 3 in `q := 1`, node 15: refused with number 21.
fn faulty_node() -> Sheet {
    let mut sheet = flag();
    sheet.nodes[15].places[0] = 3;
    sheet
}

/// Two fields of one name: refused with number 4.
pub fn name_twice() -> Sheet {
    Sheet {
        fields: vec![name("q"), name("q")],
        ..plain()
    }
}
