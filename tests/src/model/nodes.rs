//! The kinds of nodes and rows 19 to 22 of the table. What a kind's places a, b and
//! c hold is written down once, in `KINDS`; each check goes by that table.

use super::answer::number::{NODE_RANGE, NODE_SORT, NODE_UNKNOWN, NODE_UNUSED};
use super::answer::Answer;
use super::sheet::{Node, Sheet};

/// Kinds 0 to 4 are expressions, kinds 5 to 9 commands.
#[derive(Clone, Copy, Debug, PartialEq, Eq)]
pub enum Sort {
    Expression,
    Command,
}

/// What one of the places a, b, c holds.
#[derive(Clone, Copy, Debug, PartialEq, Eq)]
pub enum Place {
    Constant,
    Field,
    Child(Sort),
    Unused,
}

/// What a node of one kind is made of.
#[derive(Debug)]
pub struct Kind {
    pub name: &'static str,
    pub sort: Sort,
    /// The operator byte lies below this.
    pub operators: u8,
    pub places: [Place; 3],
}

const EXPRESSION: Place = Place::Child(Sort::Expression);
const COMMAND: Place = Place::Child(Sort::Command);
const CONSTANT: Place = Place::Constant;
const FIELD: Place = Place::Field;
const UNUSED: Place = Place::Unused;

/// Operators 0 to 9.
const OPERATORS: u8 = 10;

/// The ten kinds, by number.
pub const KINDS: [Kind; 10] = [
    expression("constant", [CONSTANT, UNUSED, UNUSED]),
    expression("field", [FIELD, UNUSED, UNUSED]),
    Kind {
        operators: OPERATORS,
        ..expression("operator", [EXPRESSION, EXPRESSION, UNUSED])
    },
    expression("not", [EXPRESSION, UNUSED, UNUSED]),
    expression("seal", [EXPRESSION, UNUSED, UNUSED]),
    command("skip", [UNUSED, UNUSED, UNUSED]),
    command("assignment", [FIELD, EXPRESSION, UNUSED]),
    command("sequence", [COMMAND, COMMAND, UNUSED]),
    command("if", [EXPRESSION, COMMAND, COMMAND]),
    command("while", [EXPRESSION, COMMAND, UNUSED]),
];

const fn expression(name: &'static str, places: [Place; 3]) -> Kind {
    Kind {
        name,
        sort: Sort::Expression,
        operators: 1,
        places,
    }
}

const fn command(name: &'static str, places: [Place; 3]) -> Kind {
    Kind {
        name,
        sort: Sort::Command,
        operators: 1,
        places,
    }
}

impl Kind {
    /// Whether the operator byte of a node of this kind is an operator.
    pub fn has_operators(&self) -> bool {
        self.operators > 1
    }

    /// How many children a node of this kind has.
    pub fn children(&self) -> usize {
        let is_child = |place: &&Place| matches!(place, Place::Child(_));
        self.places.iter().filter(is_child).count()
    }
}

impl Node {
    /// The node's kind, if it is one of the ten.
    pub fn known_kind(&self) -> Option<&'static Kind> {
        KINDS.get(usize::from(self.kind))
    }

    /// The node's sort, if its kind is known.
    pub fn sort(&self) -> Option<Sort> {
        self.known_kind().map(|kind| kind.sort)
    }

    /// Each place with what it holds; nothing for an unknown kind.
    pub fn held(&self) -> impl Iterator<Item = (Place, u16)> {
        let places = self.places;
        let kind = self.known_kind().into_iter();
        kind.flat_map(move |kind| kind.places.into_iter().zip(places))
    }

    /// The numbers of the node's children.
    pub fn children(&self) -> impl Iterator<Item = usize> {
        self.held()
            .filter(|(place, _)| matches!(place, Place::Child(_)))
            .map(|(_, number)| usize::from(number))
    }
}

/// What is asked of each node.
#[derive(Clone, Copy)]
pub struct Law {
    pub name: &'static str,
    /// The number of a node that breaks it.
    pub number: u8,
    pub holds: fn(&Sheet, usize) -> bool,
}

/// The laws in the order in which a node is looked at.
pub const LAWS: [Law; 7] = [
    law("kind", NODE_UNKNOWN, kind_is_known),
    law("operator", NODE_UNKNOWN, operator_is_known),
    law("unused place", NODE_UNUSED, unused_places_are_zero),
    law("operator byte", NODE_UNUSED, other_operator_bytes_are_zero),
    law("child number", NODE_RANGE, child_numbers_are_lower),
    law("index", NODE_RANGE, indexes_are_in_range),
    law("child's sort", NODE_SORT, children_have_their_sort),
];

const fn law(name: &'static str, number: u8, holds: fn(&Sheet, usize) -> bool) -> Law {
    Law {
        name,
        number,
        holds,
    }
}

/// Rows 19 to 22: the lowest node first, within a node in this order; the place is
/// the node's number.
pub fn first_fault(sheet: &Sheet) -> Option<Answer> {
    first_fault_by(&LAWS, sheet)
}

/// The lowest node that breaks one of these laws, told by the first that it breaks.
pub fn first_fault_by(laws: &[Law], sheet: &Sheet) -> Option<Answer> {
    (0..sheet.nodes.len()).find_map(|number| fault_of(laws, sheet, number))
}

/// What is told of a node: the first of these laws that it breaks.
pub fn fault_of(laws: &[Law], sheet: &Sheet, number: usize) -> Option<Answer> {
    let broken = laws.iter().find(|law| !(law.holds)(sheet, number));
    broken.map(|law| Answer::at_node(law.number, number))
}

fn kind_is_known(sheet: &Sheet, number: usize) -> bool {
    sheet.nodes[number].known_kind().is_some()
}

fn operator_is_known(sheet: &Sheet, number: usize) -> bool {
    let node = &sheet.nodes[number];
    node.known_kind()
        .is_none_or(|kind| !kind.has_operators() || node.operator < kind.operators)
}

fn unused_places_are_zero(sheet: &Sheet, number: usize) -> bool {
    let mut held = sheet.nodes[number].held();
    held.all(|(place, held)| place != Place::Unused || held == 0)
}

/// The operator byte is 0 in other kinds.
fn other_operator_bytes_are_zero(sheet: &Sheet, number: usize) -> bool {
    let node = &sheet.nodes[number];
    node.known_kind()
        .is_none_or(|kind| kind.has_operators() || node.operator == 0)
}

/// A child's number is lower than its parent's.
fn child_numbers_are_lower(sheet: &Sheet, number: usize) -> bool {
    sheet.nodes[number].children().all(|child| child < number)
}

fn indexes_are_in_range(sheet: &Sheet, number: usize) -> bool {
    sheet.nodes[number].held().all(|(place, held)| match place {
        Place::Constant => usize::from(held) < sheet.constants.len(),
        Place::Field => usize::from(held) < sheet.fields.len(),
        _ => true,
    })
}

/// A child that is not lower has no sort.
fn children_have_their_sort(sheet: &Sheet, number: usize) -> bool {
    let lower = &sheet.nodes[..number];
    sheet.nodes[number].held().all(|(place, held)| match place {
        Place::Child(sort) => lower
            .get(usize::from(held))
            .is_none_or(|child| child.sort() == Some(sort)),
        _ => true,
    })
}
