//! Tiny sheets thrown together from small values. They are read to the end and
//! fail anywhere or nowhere; often several faults stand in one sheet.

use super::levels::{lattice, rows};
use crate::model::levels::Levels;
use crate::model::nodes::{Place, KINDS};
use crate::model::sheet::{Name, Node, Sheet};
use crate::random::Random;

/// A random tiny sheet.
pub fn sheet(random: &mut Random) -> Sheet {
    let nodes = random.between(1, 6);
    Sheet {
        levels: levels(random),
        fields: (0..random.between(1, 2)).map(|_| name(random)).collect(),
        constants: vec![7; random.below(3)],
        nodes: (0..nodes).map(|number| node(number, random)).collect(),
    }
}

fn levels(random: &mut Random) -> Levels {
    if !random.once_in(3) {
        return rows(&lattice(random));
    }
    let count = random.between(1, 4);
    let within = (1_u16 << count) - 1;
    let row = |i| random.two_bytes() & within | 1_u16 << i;
    Levels {
        rows: (0..count).map(row).collect(),
    }
}

fn name(random: &mut Random) -> Name {
    let mut name = [0; 8];
    for byte in &mut name[..random.between(1, 4)] {
        *byte = match random.once_in(40) {
            true => random.byte(),
            false => random.between(b'a'.into(), b'e'.into()) as u8,
        };
    }
    name
}

fn node(number: usize, random: &mut Random) -> Node {
    let kind = match random.once_in(60) {
        true => random.between(0, 11),
        false => random.below(KINDS.len()),
    };
    let places = KINDS.get(kind).map(|kind| kind.places);
    let mut value = |place| match place {
        Place::Unused if !random.once_in(60) => 0,
        Place::Child(_) if number > 0 && !random.once_in(60) => random.below(number) as u16,
        _ => random.below(3) as u16,
    };
    let places = places.unwrap_or([Place::Unused; 3]).map(&mut value);
    let operators = KINDS.get(kind).map_or(1, |kind| kind.operators.into());
    let one_more = usize::from(random.once_in(60));
    Node {
        kind: kind as u8,
        operator: random.below(operators + one_more) as u8,
        places,
    }
}
