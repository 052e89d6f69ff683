//! Damages to the levels: each law of row 3 broken, and changes after which the
//! rows may still be a lattice.

use super::{Change, Damage};
use crate::generate::levels::{
    bounded_order, order, permuted, rows, without_joins, without_least_bounds, without_meets,
    Order, MOST_LEVELS,
};
use crate::model::number;
use crate::model::sheet::Sheet;
use crate::random::Random;

/// Row 3.
pub const LEVELS: &[Damage] = &[
    Damage::to_sheet(
        "a bit past the count",
        number::LEVELS_WRONG,
        bit_past_the_count,
    ),
    Damage::to_sheet("not reflexive", number::LEVELS_WRONG, not_reflexive),
    Damage::to_sheet("an empty row", number::LEVELS_WRONG, empty_row),
    Damage::to_sheet("not antisymmetric", number::LEVELS_WRONG, not_antisymmetric),
    Damage::to_sheet("twins", number::LEVELS_WRONG, twins),
    Damage::to_sheet("not transitive", number::LEVELS_WRONG, not_transitive),
    Damage::to_sheet("no top", number::LEVELS_WRONG, no_top),
    Damage::to_sheet("no bottom", number::LEVELS_WRONG, no_bottom),
    Damage::to_sheet("no least bounds", number::LEVELS_WRONG, no_least_bounds),
];

/// Changes that may leave a lattice.
pub const UNSURE: &[Damage] = &[
    Damage::unsure("a row's bit flipped", Change::Sheet(row_bit_flipped)),
    Damage::unsure("rows swapped", Change::Sheet(rows_swapped)),
    Damage::unsure("any bounded order", Change::Sheet(any_bounded_order)),
    Damage::unsure("any row", Change::Sheet(any_row)),
];

/// Pairs of different levels, the first below the second.
fn strict_pairs(order: &Order) -> Vec<(usize, usize)> {
    let count = order.len();
    (0..count * count)
        .map(|pair| (pair / count, pair % count))
        .filter(|&(i, j)| i != j && order[i][j])
        .collect()
}

fn bit_past_the_count(sheet: &mut Sheet, random: &mut Random) -> bool {
    let count = sheet.levels.count();
    if count >= MOST_LEVELS {
        return false;
    }
    let any = random.between(count, MOST_LEVELS - 1);
    let bit = random.pick(&[count, MOST_LEVELS - 1, any]);
    sheet.levels.rows[random.below(count)] |= 1 << bit;
    true
}

fn not_reflexive(sheet: &mut Sheet, random: &mut Random) -> bool {
    let level = random.below(sheet.levels.count());
    sheet.levels.rows[level] &= !(1 << level);
    true
}

fn empty_row(sheet: &mut Sheet, random: &mut Random) -> bool {
    let level = random.below(sheet.levels.count());
    sheet.levels.rows[level] = 0;
    true
}

fn not_antisymmetric(sheet: &mut Sheet, random: &mut Random) -> bool {
    let pairs = strict_pairs(&order(&sheet.levels));
    random
        .pick_any(&pairs)
        .map(|(i, j)| sheet.levels.rows[j] |= 1 << i)
        .is_some()
}

/// A second level with all the relations of another: only antisymmetry breaks.
fn twins(sheet: &mut Sheet, random: &mut Random) -> bool {
    let mut order = order(&sheet.levels);
    let count = order.len();
    if count >= MOST_LEVELS {
        return false;
    }
    let level = random.below(count);
    for row in &mut order {
        row.push(row[level]);
    }
    order[level][level] = true;
    order[level][count] = true;
    order.push(order[level].clone());
    sheet.levels = rows(&permuted(&order, random));
    true
}

/// Of i below j below k, i is no longer below k.
fn not_transitive(sheet: &mut Sheet, random: &mut Random) -> bool {
    let order = order(&sheet.levels);
    let pairs = strict_pairs(&order);
    let spans: Vec<(usize, usize)> = pairs
        .iter()
        .flat_map(|&(i, j)| pairs.iter().map(move |&pair| (i, j, pair)))
        .filter(|&(i, j, (from, k))| j == from && i != k)
        .map(|(i, _, (_, k))| (i, k))
        .collect();
    random
        .pick_any(&spans)
        .map(|(i, k)| sheet.levels.rows[i] &= !(1 << k))
        .is_some()
}

fn no_top(sheet: &mut Sheet, random: &mut Random) -> bool {
    sheet.levels = rows(&without_joins(random));
    true
}

fn no_bottom(sheet: &mut Sheet, random: &mut Random) -> bool {
    sheet.levels = rows(&without_meets(random));
    true
}

fn no_least_bounds(sheet: &mut Sheet, random: &mut Random) -> bool {
    sheet.levels = rows(&without_least_bounds(random));
    true
}

fn row_bit_flipped(sheet: &mut Sheet, random: &mut Random) -> bool {
    let count = sheet.levels.count();
    sheet.levels.rows[random.below(count)] ^= 1 << random.below(count);
    true
}

fn rows_swapped(sheet: &mut Sheet, random: &mut Random) -> bool {
    let count = sheet.levels.count();
    sheet
        .levels
        .rows
        .swap(random.below(count), random.below(count));
    true
}

fn any_bounded_order(sheet: &mut Sheet, random: &mut Random) -> bool {
    sheet.levels = rows(&bounded_order(random));
    true
}

fn any_row(sheet: &mut Sheet, random: &mut Random) -> bool {
    let count = sheet.levels.count();
    sheet.levels.rows[random.below(count)] = random.two_bytes();
    true
}
