//! The parts that stored sheets are put together from.

use beltuqash_tests::model::levels::Levels;
use beltuqash_tests::model::sheet::{Name, Node, Sheet};

pub const SKIP: Node = node(5, [0, 0, 0]);

/// A node without an operator.
pub const fn node(kind: u8, places: [u16; 3]) -> Node {
    operator(kind, 0, places)
}

pub const fn operator(kind: u8, operator: u8, places: [u16; 3]) -> Node {
    Node {
        kind,
        operator,
        places,
    }
}

pub fn name(text: &str) -> Name {
    let mut name = [0; 8];
    name[..text.len()].copy_from_slice(text.as_bytes());
    name
}

/// Levels 0 and 1, the field q, no constant, one skip.
pub fn plain() -> Sheet {
    Sheet {
        levels: Levels { rows: vec![3, 2] },
        fields: vec![name("q")],
        constants: vec![],
        nodes: vec![SKIP],
    }
}

pub fn with_nodes(nodes: Vec<Node>) -> Sheet {
    Sheet { nodes, ..plain() }
}
