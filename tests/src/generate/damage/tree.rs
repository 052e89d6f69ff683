//! Damages to the tree as a whole: nodes used twice or never, an expression
//! last, and trees that are too deep. Single nodes stay right.

use super::Damage;
use crate::generate::tree::{tree, Plan};
use crate::generate::valid::{plan, MOST_DEPTH, MOST_NODES};
use crate::model::nodes::{Place, Sort};
use crate::model::number;
use crate::model::sheet::{Node, Sheet};
use crate::random::Random;

/// Row 6.
pub const USES: &[Damage] = &[
    Damage::to_sheet(
        "a child for another",
        number::NOT_USED_ONCE,
        child_for_another,
    ),
    Damage::to_sheet("only used twice", number::NOT_USED_ONCE, only_used_twice),
    Damage::to_sheet(
        "twice in one node",
        number::NOT_USED_ONCE,
        twice_in_one_node,
    ),
    Damage::to_sheet("only never used", number::NOT_USED_ONCE, only_never_used),
    Damage::to_sheet(
        "a command after the last",
        number::NOT_USED_ONCE,
        command_after_the_last,
    ),
    Damage::to_sheet(
        "an expression after the last",
        number::NOT_USED_ONCE,
        expression_after_the_last,
    ),
    Damage::to_sheet(
        "all an expression",
        number::NOT_USED_ONCE,
        all_an_expression,
    ),
];

/// Row 7.
pub const DEPTHS: &[Damage] = &[
    Damage::to_sheet("one too deep", number::TOO_DEEP, one_too_deep),
    Damage::to_sheet("far too deep", number::TOO_DEEP, far_too_deep),
];

/// A place of a node that holds a child.
#[derive(Clone, Copy)]
pub struct Slot {
    pub parent: usize,
    pub place: usize,
    pub sort: Sort,
    pub child: usize,
}

impl Slot {
    /// Puts another child into the place.
    pub fn set(&self, sheet: &mut Sheet, child: usize) {
        sheet.nodes[self.parent].places[self.place] = child as u16;
    }
}

/// All places that hold children.
pub fn slots(nodes: &[Node]) -> Vec<Slot> {
    let of_node = |(parent, node): (usize, &Node)| {
        let held = node.held().enumerate();
        held.filter_map(move |(place, (what, child))| match what {
            Place::Child(sort) => Some(Slot {
                parent,
                place,
                sort,
                child: child.into(),
            }),
            _ => None,
        })
    };
    nodes.iter().enumerate().flat_map(of_node).collect()
}

/// Gives every child in every node its new number.
fn renumber(nodes: &mut [Node], new_number: impl Fn(usize) -> usize) {
    for slot in slots(nodes) {
        nodes[slot.parent].places[slot.place] = new_number(slot.child) as u16;
    }
}

/// Two nodes exchange their numbers; the tree stays.
pub fn exchange_numbers(nodes: &mut [Node], one: usize, other: usize) {
    renumber(nodes, |number| match number {
        _ if number == one => other,
        _ if number == other => one,
        _ => number,
    });
    nodes.swap(one, other);
}

/// Puts in a node without children.
fn insert(nodes: &mut Vec<Node>, at: usize, node: Node) {
    renumber(nodes, |number| number + usize::from(number >= at));
    nodes.insert(at, node);
}

/// Takes out a node that nobody uses.
fn remove(nodes: &mut Vec<Node>, at: usize) {
    nodes.remove(at);
    renumber(nodes, |number| number - usize::from(number > at));
}

/// Nodes below the slot's parent that could stand in the slot instead.
fn instead(sheet: &Sheet, slot: &Slot) -> Vec<usize> {
    (0..slot.parent)
        .filter(|&number| number != slot.child)
        .filter(|&number| sheet.nodes[number].sort() == Some(slot.sort))
        .collect()
}

/// One node is used once more, another never.
fn child_for_another(sheet: &mut Sheet, random: &mut Random) -> bool {
    let slots = slots(&sheet.nodes);
    let Some(slot) = random.pick_any(&slots) else {
        return false;
    };
    let child = random.pick_any(&instead(sheet, &slot));
    child.map(|child| slot.set(sheet, child)).is_some()
}

/// One node is used twice; no node is left over.
fn only_used_twice(sheet: &mut Sheet, random: &mut Random) -> bool {
    let mut slots = slots(&sheet.nodes);
    slots.retain(|slot| is_a_leaf(sheet, slot.child));
    let Some(slot) = random.pick_any(&slots) else {
        return false;
    };
    let Some(child) = random.pick_any(&instead(sheet, &slot)) else {
        return false;
    };
    slot.set(sheet, child);
    remove(&mut sheet.nodes, slot.child);
    true
}

pub fn is_a_leaf(sheet: &Sheet, number: usize) -> bool {
    let node = sheet.nodes.get(number);
    node.is_some_and(|node| node.children().count() == 0)
}

/// Two children of one node and one sort become the same one.
fn twice_in_one_node(sheet: &mut Sheet, random: &mut Random) -> bool {
    let slots = slots(&sheet.nodes);
    let pairs: Vec<(Slot, Slot)> = slots
        .windows(2)
        .map(|pair| (pair[0], pair[1]))
        .filter(|(one, other)| one.parent == other.parent && one.sort == other.sort)
        .collect();
    let pair = random.pick_any(&pairs);
    pair.map(|(one, other)| match random.once_in(2) {
        true => one.set(sheet, other.child),
        false => other.set(sheet, one.child),
    })
    .is_some()
}

/// Field 0.
pub const FIELD: Node = Node {
    kind: 1,
    operator: 0,
    places: [0; 3],
};

pub const SKIP: Node = Node { kind: 5, ..FIELD };

/// One leaf is left over: first, right before the last node, or between.
fn only_never_used(sheet: &mut Sheet, random: &mut Random) -> bool {
    let count = sheet.nodes.len();
    if count >= MOST_NODES {
        return false;
    }
    let any = random.below(count);
    let at = random.pick(&[0, count - 1, any]);
    let leaf = random.pick(&[FIELD, SKIP]);
    insert(&mut sheet.nodes, at, leaf);
    true
}

fn append(sheet: &mut Sheet, leaf: Node) -> bool {
    let fits = sheet.nodes.len() < MOST_NODES;
    if fits {
        sheet.nodes.push(leaf);
    }
    fits
}

fn command_after_the_last(sheet: &mut Sheet, _: &mut Random) -> bool {
    append(sheet, SKIP)
}

fn expression_after_the_last(sheet: &mut Sheet, _: &mut Random) -> bool {
    append(sheet, FIELD)
}

/// A right tree but for its last node, an expression.
fn all_an_expression(sheet: &mut Sheet, random: &mut Random) -> bool {
    let nodes = random.spread(MOST_NODES);
    let plan = plan(nodes, sheet.fields.len(), sheet.constants.len(), random);
    let last = Sort::Expression;
    sheet.nodes = tree(&Plan { last, ..plan }, random);
    true
}

fn one_too_deep(sheet: &mut Sheet, random: &mut Random) -> bool {
    deep(sheet, MOST_DEPTH + 1, MOST_DEPTH + 1, random)
}

fn far_too_deep(sheet: &mut Sheet, random: &mut Random) -> bool {
    let depth = MOST_DEPTH + 1 + random.spread(MOST_NODES - MOST_DEPTH - 1);
    deep(sheet, depth, MOST_NODES, random)
}

fn deep(sheet: &mut Sheet, depth: usize, most_depth: usize, random: &mut Random) -> bool {
    let more = match MOST_NODES - depth {
        0 => 0,
        most => random.spread(most) - 1,
    };
    let plan = Plan {
        last: Sort::Command,
        nodes: depth + more,
        depth,
        most_depth,
        fields: sheet.fields.len(),
        constants: sheet.constants.len(),
    };
    sheet.nodes = tree(&plan, random);
    true
}
