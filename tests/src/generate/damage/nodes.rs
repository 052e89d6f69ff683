//! Damages to single nodes: each part of rows 19 to 22 broken, at any node and place,
//! and several of them in one node.

use super::tree::{exchange_numbers, is_a_leaf, slots, Slot, FIELD, SKIP};
use super::{Change, Damage};
use crate::model::nodes::{Kind, Place, Sort, KINDS};
use crate::model::number::{NODE_RANGE, NODE_SORT, NODE_UNKNOWN, NODE_UNUSED};
use crate::model::sheet::{Node, Sheet};
use crate::random::Random;

/// Row 19.
pub const UNKNOWN: &[Damage] = &[
    Damage::to_sheet("an unknown kind", NODE_UNKNOWN, unknown_kind),
    Damage::to_sheet("an unknown operator", NODE_UNKNOWN, unknown_operator),
    Damage::to_sheet(
        "an unknown operator and more",
        NODE_UNKNOWN,
        faulty_operator::<NODE_UNKNOWN>,
    ),
];

/// Row 20.
pub const UNUSED: &[Damage] = &[
    Damage::to_sheet("an operator byte set", NODE_UNUSED, operator_byte_set),
    Damage::to_sheet("an unused place set", NODE_UNUSED, unused_place_set),
    Damage::to_sheet(
        "an unused place set and more",
        NODE_UNUSED,
        faulty_operator::<NODE_UNUSED>,
    ),
];

/// Row 21.
pub const RANGES: &[Damage] = &[
    Damage::to_sheet("a child not lower", NODE_RANGE, child_not_lower),
    Damage::to_sheet("a child past the nodes", NODE_RANGE, child_past_the_nodes),
    Damage::to_sheet("child above parent", NODE_RANGE, child_above_parent),
    Damage::to_sheet("an index too high by one", NODE_RANGE, index_by_one),
    Damage::to_sheet("an index too high", NODE_RANGE, index_too_high),
    Damage::to_sheet(
        "a child not lower and more",
        NODE_RANGE,
        faulty_operator::<NODE_RANGE>,
    ),
];

/// Row 22.
pub const SORTS: &[Damage] = &[
    Damage::to_sheet("a child of wrong sort", NODE_SORT, wrong_sort),
    Damage::to_sheet("a leaf of wrong sort", NODE_SORT, leaf_of_wrong_sort),
    Damage::to_sheet("two sorts exchanged", NODE_SORT, sorts_exchanged),
];

/// Changes that may do anything to the tree, or nothing.
pub const UNSURE: &[Damage] = &[
    Damage::unsure("any kind", Change::Sheet(any_kind)),
    Damage::unsure("any value in a place", Change::Sheet(any_place)),
    Damage::unsure("any node", Change::Sheet(any_node)),
    Damage::unsure("several nodes", Change::Sheet(several_nodes)),
    Damage::unsure("nodes swapped", Change::Sheet(nodes_swapped)),
];

/// A node that fits, the first or last one more often than others.
fn some_node(sheet: &Sheet, random: &mut Random, fits: impl Fn(&Node) -> bool) -> Option<usize> {
    let numbers = (0..sheet.nodes.len()).filter(|&number| fits(&sheet.nodes[number]));
    let numbers: Vec<usize> = numbers.collect();
    match random.below(6) {
        0 => numbers.first().copied(),
        1 => numbers.last().copied(),
        _ => random.pick_any(&numbers),
    }
}

/// Places of known nodes that hold what fits: node number and place.
fn some_place(
    sheet: &Sheet,
    random: &mut Random,
    fits: impl Fn(Place) -> bool,
) -> Option<(usize, usize)> {
    let has_one = |node: &Node| node.held().any(|(place, _)| fits(place));
    let number = some_node(sheet, random, has_one)?;
    let held = sheet.nodes[number].held().enumerate();
    let places: Vec<usize> = held
        .filter(|&(_, (place, _))| fits(place))
        .map(|(at, _)| at)
        .collect();
    Some((number, random.pick(&places)))
}

fn unknown_kind(sheet: &mut Sheet, random: &mut Random) -> bool {
    let any = random.between(10, 255);
    let kind = random.pick(&[10, 10, 11, 255, any]);
    some_node(sheet, random, |_| true)
        .map(|number| sheet.nodes[number].kind = kind as u8)
        .is_some()
}

fn takes_operators(node: &Node) -> bool {
    node.known_kind().is_some_and(Kind::has_operators)
}

fn unknown_operator(sheet: &mut Sheet, random: &mut Random) -> bool {
    let any = random.between(10, 255);
    let operator = random.pick(&[10, 10, 255, any]);
    some_node(sheet, random, takes_operators)
        .map(|number| sheet.nodes[number].operator = operator as u8)
        .is_some()
}

fn operator_byte_set(sheet: &mut Sheet, random: &mut Random) -> bool {
    let any = random.between(1, 255);
    let operator = random.pick(&[1, 9, 255, any]);
    let fits = |node: &Node| node.known_kind().is_some() && !takes_operators(node);
    some_node(sheet, random, fits)
        .map(|number| sheet.nodes[number].operator = operator as u8)
        .is_some()
}

/// The numbers in a range whose nodes have the sort that a slot asks for.
fn of_its_sort(sheet: &Sheet, slot: &Slot, range: std::ops::Range<usize>) -> Vec<usize> {
    range
        .filter(|&number| sheet.nodes[number].sort() == Some(slot.sort))
        .collect()
}

/// The parent itself or a later node, of the right sort.
fn child_not_lower(sheet: &mut Sheet, random: &mut Random) -> bool {
    let slots = slots(&sheet.nodes);
    let Some(slot) = random.pick_any(&slots) else {
        return false;
    };
    let later = of_its_sort(sheet, &slot, slot.parent..sheet.nodes.len());
    let child = match later.contains(&slot.parent) && random.once_in(2) {
        true => Some(slot.parent),
        false => random.pick_any(&later),
    };
    child.map(|child| slot.set(sheet, child)).is_some()
}

fn child_past_the_nodes(sheet: &mut Sheet, random: &mut Random) -> bool {
    let slots = slots(&sheet.nodes);
    let count = sheet.nodes.len();
    let any = random.between(count, 65_535);
    let child = random.pick(&[count, count + 1, 65_535, any]);
    let slot = random.pick_any(&slots);
    slot.map(|slot| slot.set(sheet, child)).is_some()
}

/// The tree stays, but a child and its parent exchange their numbers.
fn child_above_parent(sheet: &mut Sheet, random: &mut Random) -> bool {
    let slots = slots(&sheet.nodes);
    let inside: Vec<Slot> = slots
        .into_iter()
        .filter(|slot| slot.child < slot.parent)
        .collect();
    let slot = random.pick_any(&inside);
    slot.map(|slot| exchange_numbers(&mut sheet.nodes, slot.child, slot.parent))
        .is_some()
}

fn wrong_sort(sheet: &mut Sheet, random: &mut Random) -> bool {
    let slots = slots(&sheet.nodes);
    let Some(slot) = random.pick_any(&slots) else {
        return false;
    };
    let lower = 0..slot.parent;
    let wrong: Vec<usize> = lower
        .filter(|&number| sheet.nodes[number].sort() != Some(slot.sort))
        .collect();
    let child = random.pick_any(&wrong);
    child.map(|child| slot.set(sheet, child)).is_some()
}

/// A skip where an expression stood, or a field where a skip stood.
fn leaf_of_wrong_sort(sheet: &mut Sheet, random: &mut Random) -> bool {
    let mut slots = slots(&sheet.nodes);
    slots.retain(|slot| is_a_leaf(sheet, slot.child));
    let slot = random.pick_any(&slots);
    slot.map(|slot| {
        sheet.nodes[slot.child] = match slot.sort {
            Sort::Expression => SKIP,
            Sort::Command => FIELD,
        }
    })
    .is_some()
}

/// Two children of different sorts change places; every node stays used once.
fn sorts_exchanged(sheet: &mut Sheet, random: &mut Random) -> bool {
    let slots = slots(&sheet.nodes);
    let Some(one) = random.pick_any(&slots) else {
        return false;
    };
    let others: Vec<Slot> = slots
        .into_iter()
        .filter(|other| other.sort != one.sort)
        .filter(|other| other.child < one.parent && one.child < other.parent)
        .filter(|other| sheet.nodes[other.child].sort() != Some(one.sort))
        .collect();
    let Some(other) = random.pick_any(&others) else {
        return false;
    };
    one.set(sheet, other.child);
    other.set(sheet, one.child);
    true
}

fn is_index(place: Place) -> bool {
    matches!(place, Place::Constant | Place::Field)
}

/// The count of what a node's place a names.
fn named_count(sheet: &Sheet, number: usize, place: usize) -> usize {
    let kind = sheet.nodes[number].known_kind();
    match kind.map(|kind| kind.places[place]) {
        Some(Place::Constant) => sheet.constants.len(),
        _ => sheet.fields.len(),
    }
}

fn index_by_one(sheet: &mut Sheet, random: &mut Random) -> bool {
    let Some((number, place)) = some_place(sheet, random, is_index) else {
        return false;
    };
    let count = named_count(sheet, number, place);
    sheet.nodes[number].places[place] = count as u16;
    true
}

/// Far too high, or right but for its high byte.
fn index_too_high(sheet: &mut Sheet, random: &mut Random) -> bool {
    let Some((number, place)) = some_place(sheet, random, is_index) else {
        return false;
    };
    let count = named_count(sheet, number, place);
    let index = &mut sheet.nodes[number].places[place];
    *index = match random.below(3) {
        0 => 65_535,
        1 => random.between(count, 65_535) as u16,
        _ => *index % 256 + 256 * random.between(1, 255) as u16,
    };
    true
}

fn unused_place_set(sheet: &mut Sheet, random: &mut Random) -> bool {
    let Some((number, place)) = some_place(sheet, random, |place| place == Place::Unused) else {
        return false;
    };
    let bit = 1 << random.below(16);
    sheet.nodes[number].places[place] = random.pick(&[1, 256, 65_535, bit]);
    true
}

/// An operator, whose node can have every fault, with this one and any later ones.
fn faulty_operator<const FIRST: u8>(sheet: &mut Sheet, random: &mut Random) -> bool {
    let Some(number) = some_node(sheet, random, takes_operators) else {
        return false;
    };
    let is_command = |&lower: &usize| sheet.nodes[lower].sort() == Some(Sort::Command);
    let commands: Vec<usize> = (0..number).filter(is_command).collect();
    let not_lower = random.between(number, sheet.nodes.len());
    let unknown = random.between(10, 255);
    let node = &mut sheet.nodes[number];
    let mut has = |fault| fault == FIRST || fault > FIRST && random.once_in(2);
    if has(NODE_UNKNOWN) {
        node.operator = unknown as u8;
    }
    if has(NODE_UNUSED) {
        node.places[2] = 1;
    }
    if has(NODE_SORT) {
        node.places[0] = commands
            .last()
            .map_or(node.places[0], |&lower| lower as u16);
    }
    if has(NODE_RANGE) {
        node.places[1] = not_lower as u16;
    }
    true
}

fn any_kind(sheet: &mut Sheet, random: &mut Random) -> bool {
    let number = random.below(sheet.nodes.len());
    sheet.nodes[number].kind = random.below(KINDS.len()) as u8;
    true
}

fn any_place(sheet: &mut Sheet, random: &mut Random) -> bool {
    let count = sheet.nodes.len();
    let node = &mut sheet.nodes[random.below(count)];
    node.places[random.below(3)] = random.below(count + 1) as u16;
    true
}

/// A node made anew; mostly several of its parts are wrong.
fn any_node(sheet: &mut Sheet, random: &mut Random) -> bool {
    let count = sheet.nodes.len();
    let number = random.below(count);
    let mut place = |_| random.pick(&[0, number / 2, number.max(1) - 1, number, count]) as u16;
    let places = [0; 3].map(&mut place);
    sheet.nodes[number] = Node {
        kind: random.below(KINDS.len() + 1) as u8,
        operator: random.pick(&[0, 0, 1, 9, 10]),
        places,
    };
    true
}

fn several_nodes(sheet: &mut Sheet, random: &mut Random) -> bool {
    (0..random.between(2, 4)).all(|_| any_node(sheet, random))
}

fn nodes_swapped(sheet: &mut Sheet, random: &mut Random) -> bool {
    let count = sheet.nodes.len();
    sheet.nodes.swap(random.below(count), random.below(count));
    true
}
