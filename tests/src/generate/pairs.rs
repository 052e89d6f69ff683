//! Pairs of runs for the search: one sheet, one reader, two start stores that
//! agree for the reader, any two fuels, and one request of the reader.

use super::calls::{runnable, runs, stores};
use super::levels::{diamond, lattice, small_lattice};
use super::write;
use crate::model::agree::fields_agree;
use crate::model::run::Mode;
use crate::model::sheet::Sheet;
use crate::model::store::{Marked, Store};
use crate::random::Random;

/// Two runs that a reader must not tell apart.
pub struct Pair {
    pub sheet: Sheet,
    pub bytes: Vec<u8>,
    pub mode: Mode,
    pub reader: usize,
    pub stores: [Store; 2],
    pub fuels: [u32; 2],
    /// The fields that the reader asks afterwards.
    pub fields: Vec<usize>,
}

/// The pair of this index in the search of this seed.
pub fn pair(seed: u64, index: u64) -> Pair {
    let random = &mut Random::of_pair(seed, index);
    let levels = match random.below(16) {
        0..6 => diamond(random),
        6..13 => small_lattice(random),
        _ => lattice(random),
    };
    let sheet = runnable::sheet_of(&levels, random);
    let mode = random.pick(&[Mode::Strict, Mode::Permissive, Mode::Permissive]);
    let reader = reader(&sheet, random);
    let partial = mode == Mode::Permissive && reader != sheet.levels.top();
    let store = stores::store(&sheet, partial, random);
    let other = agreeing(&sheet, reader, &store, partial, random);
    Pair {
        bytes: write::bytes(&sheet),
        mode,
        reader,
        fuels: fuels(&sheet, random),
        fields: fields(&sheet, random),
        stores: [store, other],
        sheet,
    }
}

/// Any level, seldom TOP: no field is closed to it.
fn reader(sheet: &Sheet, random: &mut Random) -> usize {
    let top = sheet.levels.top();
    let any: Vec<usize> = (0..sheet.levels.count()).collect();
    let others: Vec<usize> = any.into_iter().filter(|&level| level != top).collect();
    match random.once_in(16) {
        true => top,
        false => random.pick_any(&others).unwrap_or(top),
    }
}

/// A store that agrees with this one for the reader, other fields tried as often
/// as it takes, within reason.
fn agreeing(
    sheet: &Sheet,
    reader: usize,
    store: &Store,
    partial: bool,
    random: &mut Random,
) -> Store {
    let mut agreeing = store.clone();
    for _ in 0..random.between(1, 3) {
        let others = stores::store(sheet, partial, random).fields;
        for ((field, other), &one) in agreeing.fields.iter_mut().zip(others).zip(&store.fields) {
            // A field of the same mark more often than chance has it.
            let same_mark = Marked {
                mark: one.mark,
                ..other
            };
            let other = random.pick(&[other, same_mark]);
            if fields_agree(&sheet.levels, reader, &one, &other) {
                *field = other;
            }
        }
    }
    agreeing
}

/// Enough for most runs, or any.
fn fuels(sheet: &Sheet, random: &mut Random) -> [u32; 2] {
    let mut fuel = || match random.once_in(8) {
        true => runs::fuel(sheet, random),
        false => random.between(200, 2_000) as u32,
    };
    [fuel(), fuel()]
}

/// A few fields, or all of them.
fn fields(sheet: &Sheet, random: &mut Random) -> Vec<usize> {
    let fields = sheet.fields.len();
    match random.once_in(4) {
        true => (0..fields).collect(),
        false => (0..random.between(1, 4))
            .map(|_| random.below(fields))
            .collect(),
    }
}
