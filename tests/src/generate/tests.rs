//! What the generator promises: valid sheets are taken, each damage alone brings
//! about its number, faulty nodes come up with others and with several faults, and so
//! do the limits and variety that the document names.

use super::damage::{with_damages, Damage, GROUPS};
use super::{case, garbage, valid, write};
use crate::model::nodes::{KINDS, LAWS};
use crate::model::number::OF_NODES;
use crate::model::sheet::Sheet;
use crate::model::tree::depths;
use crate::model::{load, number};
use crate::random::Random;
use std::collections::{BTreeMap, BTreeSet};

fn valid_sheets(count: u64) -> impl Iterator<Item = Sheet> {
    (0..count).map(|index| valid::sheet(&mut Random::of_sheet(11, index)))
}

#[test]
fn valid_sheets_are_taken_and_read_back() {
    for sheet in valid_sheets(2000) {
        let bytes = write::bytes(&sheet);
        assert_eq!(load(&bytes).number, number::DONE, "{sheet:?}");
        assert_eq!(Sheet::read(&bytes), Ok(sheet));
    }
}

#[test]
fn each_damage_alone_brings_about_its_number() {
    let damages = GROUPS.iter().copied().flatten();
    for damage in damages.filter(|damage| damage.number.is_some()) {
        let done = (0..400).filter(|&index| brings_its_number(damage, index));
        assert!(done.count() > 50, "{} seldom fits", damage.name);
    }
}

/// Whether the damage fits a sheet; its number is then checked.
fn brings_its_number(damage: &Damage, index: u64) -> bool {
    let random = &mut Random::of_sheet(12, index);
    let case = with_damages(vec![*damage], random);
    let number = load(&case.bytes).number;
    assert_eq!(Some(number), case.expected, "{} at {index}", damage.name);
    case.expected == damage.number
}

/// The numbers that a node has earned, each law by itself.
fn faults(sheet: &Sheet, number: usize) -> Vec<u8> {
    let broken = LAWS.iter().filter(|law| !(law.holds)(sheet, number));
    broken.map(|law| law.number).collect()
}

/// Among these sheets, every two faults come up so many times in the node that is
/// told, and, in either order, in that node and in a higher one.
pub fn faults_come_up_together(sheets: impl Iterator<Item = Vec<u8>>, least: u64) {
    let mut in_one_node = Times::new();
    let mut in_several = Times::new();
    for bytes in sheets {
        let told = load(&bytes);
        if !OF_NODES.contains(&told.number) {
            continue;
        }
        let sheet = Sheet::read(&bytes).expect("a sheet with nodes");
        let node = usize::from(told.place);
        count(&mut in_one_node, told.number, faults(&sheet, node));
        let higher = (node + 1..sheet.nodes.len()).flat_map(|number| faults(&sheet, number));
        count(&mut in_several, told.number, higher.collect());
    }
    for (at, &first) in OF_NODES.iter().enumerate() {
        for &second in OF_NODES {
            let times = |times: &Times| times.get(&(first, second)).copied().unwrap_or(0);
            assert!(times(&in_several) >= least, "{first} below {second}");
            let later = OF_NODES[at + 1..].contains(&second);
            assert!(
                !later || times(&in_one_node) >= least,
                "{first} with {second}"
            );
        }
    }
}

/// How many sheets have these two numbers, the first one told.
type Times = BTreeMap<(u8, u8), u64>;

/// Counts a sheet once for each of the others.
fn count(times: &mut Times, told: u8, others: Vec<u8>) {
    for other in BTreeSet::from_iter(others) {
        *times.entry((told, other)).or_default() += 1;
    }
}

#[test]
fn faulty_nodes_come_up_together() {
    faults_come_up_together((0..20_000).map(|index| case(14, index).bytes), 10);
}

#[test]
fn garbage_of_every_length_comes_up() {
    let garbage = |index| garbage::bytes(&mut Random::of_sheet(13, index));
    for length in [0, 1, 2, 3, 65_535, 65_536] {
        let comes_up = (0..8000).any(|index| garbage(index).len() == length);
        assert!(comes_up, "{length} bytes");
    }
    let most = [0xff, 0xff];
    assert!((0..2000).any(|index| garbage(index).starts_with(&most)));
}

/// Whether some valid sheet is so.
fn comes_up(so: impl Fn(&Sheet) -> bool) -> bool {
    valid_sheets(2000).any(|sheet| so(&sheet))
}

#[test]
fn every_limit_comes_up() {
    assert!(comes_up(|sheet| sheet.levels.count() == 1));
    assert!(comes_up(|sheet| sheet.levels.count() == 16));
    assert!(comes_up(|sheet| sheet.fields.len() == 1));
    assert!(comes_up(|sheet| sheet.fields.len() == 64));
    assert!(comes_up(|sheet| sheet.constants.is_empty()));
    assert!(comes_up(|sheet| sheet.constants.len() == 256));
    assert!(comes_up(|sheet| sheet.nodes.len() == 1));
    assert!(comes_up(|sheet| sheet.nodes.len() == 1024));
    assert!(comes_up(|sheet| depths(sheet).into_iter().max() == Some(64)));
    let full = |sheet: &Sheet| sheet.nodes.len() == 1024 && depths(sheet).contains(&64);
    assert!(comes_up(full));
}

#[test]
fn every_kind_and_operator_comes_up() {
    for (kind, made_of) in KINDS.iter().enumerate() {
        for operator in 0..made_of.operators {
            let is_it = |sheet: &Sheet| {
                let mut nodes = sheet.nodes.iter();
                nodes.any(|node| usize::from(node.kind) == kind && node.operator == operator)
            };
            assert!(comes_up(is_it), "kind {kind}, operator {operator}");
        }
    }
}

#[test]
fn levels_and_numberings_vary() {
    let bottom_is_not_0 = |sheet: &Sheet| sheet.levels.rows[0].count_ones() == 1;
    assert!(comes_up(
        |sheet| sheet.levels.count() > 4 && bottom_is_not_0(sheet)
    ));
    let incomparable = |sheet: &Sheet| {
        let related: u32 = sheet.levels.rows.iter().map(|row| row.count_ones()).sum();
        let count = sheet.levels.count() as u32;
        related < count * (count + 1) / 2
    };
    assert!(comes_up(
        |sheet| sheet.levels.count() == 5 && incomparable(sheet)
    ));
    // In post-order the highest child of every parent is right below it.
    let not_post_order = |sheet: &Sheet| {
        let mut parents = (0..sheet.nodes.len()).rev();
        parents.any(|parent| {
            let highest = sheet.nodes[parent].children().max();
            highest.is_some_and(|child| child + 1 < parent)
        })
    };
    assert!(comes_up(not_post_order));
}
