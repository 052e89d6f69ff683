//! Damages to counts. Either the section truly has too many or no entries, or
//! only the count tells so.

use super::Damage;
use crate::generate::levels::MOST_LEVELS;
use crate::generate::names::new_name;
use crate::generate::tree::tree;
use crate::generate::valid::{plan, MOST_CONSTANTS, MOST_FIELDS, MOST_NODES};
use crate::generate::write::Written;
use crate::model::number;
use crate::model::sheet::Sheet;
use crate::random::Random;

/// Row 2.
pub const COUNTS: &[Damage] = &[
    Damage::to_sheet("no levels", number::COUNT_OUTSIDE, no_levels),
    Damage::to_sheet("no fields", number::COUNT_OUTSIDE, no_fields),
    Damage::to_sheet("no nodes", number::COUNT_OUTSIDE, no_nodes),
    Damage::to_sheet("too many levels", number::COUNT_OUTSIDE, too_many_levels),
    Damage::to_sheet("too many fields", number::COUNT_OUTSIDE, too_many_fields),
    Damage::to_sheet(
        "too many constants",
        number::COUNT_OUTSIDE,
        too_many_constants,
    ),
    Damage::to_sheet("too many nodes", number::COUNT_OUTSIDE, too_many_nodes),
    Damage::to_bytes("a count too low", number::COUNT_OUTSIDE, count_too_low),
    Damage::to_bytes("a count too high", number::COUNT_OUTSIDE, count_too_high),
    Damage::to_bytes(
        "a count's high byte",
        number::COUNT_OUTSIDE,
        count_high_byte,
    ),
];

fn no_levels(sheet: &mut Sheet, _: &mut Random) -> bool {
    sheet.levels.rows.clear();
    true
}

fn no_fields(sheet: &mut Sheet, _: &mut Random) -> bool {
    sheet.fields.clear();
    true
}

fn no_nodes(sheet: &mut Sheet, _: &mut Random) -> bool {
    sheet.nodes.clear();
    true
}

/// One more than the limit mostly.
fn past(most: usize, random: &mut Random) -> usize {
    most + random.pick(&[1, 1, 1, 2, 5])
}

/// A chain, as far as rows of 16 bits can tell one.
fn too_many_levels(sheet: &mut Sheet, random: &mut Random) -> bool {
    let count = past(MOST_LEVELS, random);
    let row = |i| 0xffff_u16.checked_shl(i as u32).unwrap_or(0);
    sheet.levels.rows = (0..count).map(row).collect();
    true
}

fn too_many_fields(sheet: &mut Sheet, random: &mut Random) -> bool {
    let count = past(MOST_FIELDS, random);
    while sheet.fields.len() < count {
        sheet.fields.push(new_name(&sheet.fields, random));
    }
    true
}

fn too_many_constants(sheet: &mut Sheet, random: &mut Random) -> bool {
    let count = past(MOST_CONSTANTS, random);
    sheet.constants.resize(count, 1);
    true
}

/// A tree that is valid but for its size.
fn too_many_nodes(sheet: &mut Sheet, random: &mut Random) -> bool {
    let count = past(MOST_NODES, random);
    let fields = sheet.fields.len().max(1);
    let mut plan = plan(count, fields, sheet.constants.len(), random);
    plan.most_depth = plan.most_depth.max(12);
    let nodes = tree(&plan, random);
    let reached = nodes.len() == count;
    if reached {
        sheet.nodes = nodes;
    }
    reached
}

/// Levels, fields and nodes; there may be no constants.
fn count_too_low(written: &mut Written, random: &mut Random) -> bool {
    let count = written.count(random.pick(&[0, 1, 3]));
    count.map(|count| *count = [0, 0]).is_some()
}

const MOSTS: [usize; 4] = [MOST_LEVELS, MOST_FIELDS, MOST_CONSTANTS, MOST_NODES];

fn count_too_high(written: &mut Written, random: &mut Random) -> bool {
    let section = random.below(4);
    let least = MOSTS[section] + 1;
    let any = random.between(least, 65_535);
    let high = random.pick(&[least, least + 1, 65_535, any]);
    let count = written.count(section);
    count
        .map(|count| *count = (high as u16).to_le_bytes())
        .is_some()
}

/// The low byte stays; the high byte alone leads out of the limits.
fn count_high_byte(written: &mut Written, random: &mut Random) -> bool {
    let section = random.below(4);
    let least = MOSTS[section] / 256 + 1;
    let high = random.between(least, 255) as u8;
    let count = written.count(section);
    count.map(|[_, high_byte]| *high_byte = high).is_some()
}
