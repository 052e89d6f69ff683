//! Runners that follow another sheet than the one they got.

use super::{Faults, WrongRunner};
use crate::model::sheet::{Node, Sheet};
use crate::model::tree::depths;
use crate::model::typed::Command;

pub fn runners() -> Vec<WrongRunner> {
    let misread = MISREAD.iter().copied();
    misread.map(WrongRunner::misreading).collect()
}

const MISREAD: Faults<fn(&mut Sheet)> = &[
    ("the first command only", |sheet| {
        let mut first = sheet.nodes.len() - 1;
        while let Command::Sequence { first: lower, .. } = sheet.nodes[first].command() {
            first = lower;
        }
        sheet.nodes.truncate(first + 1);
    }),
    ("the last command only", |sheet| {
        let mut last = sheet.nodes.len() - 1;
        while let Command::Sequence { second, .. } = sheet.nodes[last].command() {
            last = second;
        }
        sheet.nodes.truncate(last + 1);
    }),
    ("then and else exchanged", |sheet| {
        let ifs = sheet.nodes.iter_mut().filter(|node| node.kind == IF);
        ifs.for_each(|node| node.places.swap(1, 2));
    }),
    ("a then's second command left out", |sheet| {
        leave_out_second_of_places_b(sheet, IF);
    }),
    ("a loop's second command left out", |sheet| {
        leave_out_second_of_places_b(sheet, WHILE);
    }),
    ("commands deeper than 48 are skips", |sheet| {
        let deep = depths(sheet).into_iter().map(|depth| depth > 48);
        let nodes = sheet.nodes.iter_mut().zip(deep);
        let deep = nodes.filter(|(node, deep)| *deep && node.kind > SKIP.kind);
        deep.for_each(|(node, _)| *node = SKIP);
    }),
    ("expressions deeper than 48 are field 0", |sheet| {
        let deep = depths(sheet).into_iter().map(|depth| depth > 48);
        let nodes = sheet.nodes.iter_mut().zip(deep);
        let deep = nodes.filter(|(node, deep)| *deep && node.kind < SKIP.kind);
        deep.for_each(|(node, _)| *node = FIELD_0);
    }),
    ("constants of two bytes", |sheet| {
        let constants = sheet.constants.iter_mut();
        constants.for_each(|value| *value = i32::from(*value as i16));
    }),
    ("the first constant for all", |sheet| {
        let first = sheet.constants.first().copied();
        sheet.constants.fill(first.unwrap_or(0));
    }),
    ("the next field assigned", |sheet| {
        let fields = sheet.fields.len() as u16;
        let assignments = sheet
            .nodes
            .iter_mut()
            .filter(|node| node.kind == ASSIGNMENT);
        assignments.for_each(|node| node.places[0] = (node.places[0] + 1) % fields);
    }),
];

const ASSIGNMENT: u8 = 6;
const IF: u8 = 8;
const WHILE: u8 = 9;

const SKIP: Node = Node {
    kind: 5,
    operator: 0,
    places: [0; 3],
};

const FIELD_0: Node = Node { kind: 1, ..SKIP };

/// Puts the first command in the place of each sequence that a node of this kind
/// holds in place b.
fn leave_out_second_of_places_b(sheet: &mut Sheet, kind: u8) {
    let nodes = sheet.nodes.iter().filter(|node| node.kind == kind);
    let held: Vec<usize> = nodes.map(|node| node.places[1].into()).collect();
    for number in held {
        if let Command::Sequence { first, .. } = sheet.nodes[number].command() {
            sheet.nodes[number] = sheet.nodes[first];
        }
    }
}
