//! Trees of nodes before they are numbered, put together from the leaves up.

use crate::generate::numbering::numbers;
use crate::model::nodes::{Place, KINDS};
use crate::model::sheet::Node;
use crate::model::values::Operator;
use crate::random::Random;

/// A node with its children.
pub struct Draft {
    kind: usize,
    operator: u8,
    /// The index of the constant or field that it names.
    index: usize,
    children: Vec<Draft>,
    /// How deep the tree goes down from here; 1 for a leaf.
    pub height: usize,
    /// How many nodes it has.
    pub nodes: usize,
}

impl Draft {
    fn new<const CHILDREN: usize>(kind: usize, children: [Draft; CHILDREN]) -> Draft {
        let highest = children.iter().map(|child| child.height).max();
        Draft {
            kind,
            operator: 0,
            index: 0,
            height: 1 + highest.unwrap_or(0),
            nodes: 1 + children.iter().map(|child| child.nodes).sum::<usize>(),
            children: children.into(),
        }
    }

    fn naming(self, index: usize) -> Draft {
        Draft { index, ..self }
    }
}

pub fn constant(index: usize) -> Draft {
    Draft::new(0, []).naming(index)
}

pub fn field(field: usize) -> Draft {
    Draft::new(1, []).naming(field)
}

pub fn operator(operator: Operator, left: Draft, right: Draft) -> Draft {
    Draft {
        operator: operator as u8,
        ..Draft::new(2, [left, right])
    }
}

pub fn not(of: Draft) -> Draft {
    Draft::new(3, [of])
}

pub fn seal(of: Draft) -> Draft {
    Draft::new(4, [of])
}

pub fn skip() -> Draft {
    Draft::new(5, [])
}

pub fn assignment(field: usize, expression: Draft) -> Draft {
    Draft::new(6, [expression]).naming(field)
}

pub fn sequence(first: Draft, second: Draft) -> Draft {
    Draft::new(7, [first, second])
}

pub fn branch(test: Draft, yes: Draft, no: Draft) -> Draft {
    Draft::new(8, [test, yes, no])
}

pub fn rounds(test: Draft, body: Draft) -> Draft {
    Draft::new(9, [test, body])
}

/// One sequence of all these commands, in any tree that is not too deep.
pub fn in_sequence(mut commands: Vec<Draft>, random: &mut Random) -> Draft {
    let count = commands.len();
    if count == 1 {
        return commands.remove(0);
    }
    let split = match count > 8 {
        true => count / 2,
        false => random.between(1, count - 1),
    };
    let later = commands.split_off(split);
    let first = in_sequence(commands, random);
    sequence(first, in_sequence(later, random))
}

/// The nodes of a tree under random numbers.
pub fn numbered(top: &Draft, random: &mut Random) -> Vec<Node> {
    let mut drafts = Vec::new();
    let mut children = Vec::new();
    list(top, &mut drafts, &mut children);
    let number_of = numbers(drafts.len(), |id| &children[id], random);
    let mut nodes = vec![Node::default(); drafts.len()];
    for (id, draft) in drafts.into_iter().enumerate() {
        let mut below = children[id].iter().map(|&child| number_of[child]);
        let held = |place| match place {
            Place::Constant | Place::Field => draft.index,
            Place::Child(_) => below.next().expect("a child a place"),
            Place::Unused => 0,
        };
        nodes[number_of[id]] = Node {
            kind: draft.kind as u8,
            operator: draft.operator,
            places: KINDS[draft.kind].places.map(held).map(|held| held as u16),
        };
    }
    nodes
}

/// Lists a tree, its top first, with the places of all children in the list.
fn list<'a>(top: &'a Draft, drafts: &mut Vec<&'a Draft>, children: &mut Vec<Vec<usize>>) -> usize {
    let id = drafts.len();
    drafts.push(top);
    children.push(Vec::new());
    for child in &top.children {
        let below = list(child, drafts, children);
        children[id].push(below);
    }
    id
}
