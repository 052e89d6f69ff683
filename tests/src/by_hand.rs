//! Sheets' commands and stores written by hand. A command is a tree: nodes are
//! numbered as one reads, children before their parent, and each constant has an
//! index of its own.

use crate::model::marks::PARTIAL;
use crate::model::sheet::Node;
use crate::model::store::counted;

/// A node with its children.
pub struct Tree {
    kind: u8,
    operator: u8,
    held: Held,
    children: Vec<Tree>,
}

enum Held {
    Constant(i32),
    Field(u16),
    Nothing,
}

fn tree<const CHILDREN: usize>(kind: u8, held: Held, children: [Tree; CHILDREN]) -> Tree {
    Tree {
        kind,
        operator: 0,
        held,
        children: children.into(),
    }
}

pub fn constant(value: i32) -> Tree {
    tree(0, Held::Constant(value), [])
}

pub fn field(field: u16) -> Tree {
    tree(1, Held::Field(field), [])
}

pub fn operator(operator: u8, left: Tree, right: Tree) -> Tree {
    Tree {
        operator,
        ..tree(2, Held::Nothing, [left, right])
    }
}

pub fn not(of: Tree) -> Tree {
    tree(3, Held::Nothing, [of])
}

pub fn seal(of: Tree) -> Tree {
    tree(4, Held::Nothing, [of])
}

pub fn skip() -> Tree {
    tree(5, Held::Nothing, [])
}

pub fn assign(field: u16, expression: Tree) -> Tree {
    tree(6, Held::Field(field), [expression])
}

pub fn then(first: Tree, second: Tree) -> Tree {
    tree(7, Held::Nothing, [first, second])
}

pub fn branch(test: Tree, yes: Tree, no: Tree) -> Tree {
    tree(8, Held::Nothing, [test, yes, no])
}

pub fn rounds(test: Tree, body: Tree) -> Tree {
    tree(9, Held::Nothing, [test, body])
}

pub const PLUS: u8 = 0;
pub const MINUS: u8 = 1;
pub const TIMES: u8 = 2;
pub const DIVIDE: u8 = 3;
pub const REMAINDER: u8 = 4;
pub const EQUAL: u8 = 5;
pub const LESS: u8 = 6;
pub const AT_MOST: u8 = 7;
pub const AND: u8 = 8;
pub const OR: u8 = 9;

impl Tree {
    /// The constants and nodes of a sheet with this command.
    pub fn sections(self) -> (Vec<i32>, Vec<Node>) {
        let (mut constants, mut nodes) = (Vec::new(), Vec::new());
        self.write(&mut constants, &mut nodes);
        (constants, nodes)
    }

    /// Writes the tree behind the other nodes; gives its number.
    fn write(self, constants: &mut Vec<i32>, nodes: &mut Vec<Node>) -> u16 {
        let children = self.children.into_iter();
        let children: Vec<u16> = children
            .map(|child| child.write(constants, nodes))
            .collect();
        let held = match self.held {
            Held::Nothing => None,
            Held::Field(field) => Some(field),
            Held::Constant(value) => {
                constants.push(value);
                Some(constants.len() as u16 - 1)
            }
        };
        let mut places = held.into_iter().chain(children);
        nodes.push(Node {
            kind: self.kind,
            operator: self.operator,
            places: [(); 3].map(|()| places.next().unwrap_or(0)),
        });
        nodes.len() as u16 - 1
    }
}

pub const STRICT: u32 = 0;
pub const PERMISSIVE: u32 = 1;

/// Whole at this level.
pub fn whole(level: u8, value: i32) -> (u8, i32) {
    (level, value)
}

/// Partial at this level.
pub fn partial(level: u8, value: i32) -> (u8, i32) {
    (level + PARTIAL, value)
}

/// A store's bytes.
pub fn store(fields: &[(u8, i32)]) -> Vec<u8> {
    counted(fields.iter().copied())
}
