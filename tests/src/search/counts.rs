//! Where a search has looked: how many of its pairs were of each kind that a
//! breach could come from.

use crate::generate::pairs::Pair;
use crate::model::rules::DOCUMENT;
use crate::model::run::{Mode, Start};
use crate::model::store::{Marked, Store};
use crate::shares::Counted;

/// How many pairs, and of those that finished both, how many were of each kind.
#[derive(Default)]
pub struct Counts {
    pub pairs: u64,
    times: [u64; KINDS.len()],
}

/// A pair that finished both, with what came of it.
struct Finished<'a> {
    pair: &'a Pair,
    ends: [Store; 2],
    answered: bool,
}

/// A kind of pair.
type Kind = (&'static str, fn(&Finished) -> bool);

const KINDS: [Kind; 16] = [
    ("finished both", |_| true),
    ("answered both", |finished| finished.answered),
    ("answered both, a partial field withheld", |finished| {
        withheld(finished, |one, other| one || other)
    }),
    (
        "answered both, a field withheld partial twice",
        |finished| withheld(finished, |one, other| one && other),
    ),
    (
        "answered both, a field withheld whole once, partial once",
        |finished| withheld(finished, |one, other| one != other),
    ),
    (
        "answered both, a partial field withheld beside an open one",
        |finished| withheld(finished, |one, other| one || other) && shown(finished),
    ),
    (
        "answered both, a field withheld that a run left partial",
        |finished| {
            let starts = &finished.pair.stores;
            withheld(finished, |one, other| one || other) && !starts.iter().any(has_partial)
        },
    ),
    ("were strict", |finished| finished.pair.mode == Mode::Strict),
    ("were permissive", |finished| {
        finished.pair.mode == Mode::Permissive
    }),
    ("differed in closed fields", differ_in_closed_fields),
    ("took different branches", take_different_branches),
    ("had partial fields", |finished| {
        finished.ends.iter().any(has_partial)
    }),
    ("had partial fields at the start", |finished| {
        finished.pair.stores.iter().any(has_partial)
    }),
    ("had a field whole once, partial once", |finished| {
        let [one, other] = &finished.ends;
        let mut fields = one.fields.iter().zip(&other.fields);
        fields.any(|(one, other)| one.mark.partial != other.mark.partial)
    }),
    ("had different fuels", |finished| {
        let [one, other] = finished.pair.fuels;
        one != other
    }),
    ("were read by TOP", |finished| {
        finished.pair.reader == finished.pair.sheet.levels.top()
    }),
];

fn has_partial(store: &Store) -> bool {
    store.fields.iter().any(|field| field.mark.partial)
}

/// Whether the start stores differ in a field that is whole and closed in both.
fn differ_in_closed_fields(finished: &Finished) -> bool {
    let pair = finished.pair;
    let levels = &pair.sheet.levels;
    let closed =
        |field: &Marked| !field.mark.partial && !levels.at_or_below(field.mark.level, pair.reader);
    let [one, other] = &pair.stores;
    let mut fields = one.fields.iter().zip(&other.fields);
    fields.any(|(one, other)| closed(one) && closed(other) && one.value != other.value)
}

/// The asked fields in both final stores.
fn asked<'a>(finished: &'a Finished) -> impl Iterator<Item = [Marked; 2]> + 'a {
    let fields = finished.pair.fields.iter();
    fields.map(|&field| finished.ends.each_ref().map(|end| end.fields[field]))
}

fn is_open(finished: &Finished, field: Marked) -> bool {
    let levels = &finished.pair.sheet.levels;
    levels.at_or_below(field.mark.level, finished.pair.reader)
}

/// Whether both answers came, and withhold a field of which this is so: that it is
/// partial in the one store, and in the other.
fn withheld(finished: &Finished, so: impl Fn(bool, bool) -> bool) -> bool {
    let withheld = |field: Marked| field.mark.partial && !is_open(finished, field);
    let mut fields = asked(finished).map(|fields| fields.map(withheld));
    finished.answered && fields.any(|[one, other]| so(one, other))
}

/// Whether a field is shown in the answers.
fn shown(finished: &Finished) -> bool {
    asked(finished).any(|[one, _]| is_open(finished, one))
}

/// Whether the tests went different ways, or were different ones.
fn take_different_branches(finished: &Finished) -> bool {
    let [one, other] = [0, 1].map(|which| way(finished.pair, which));
    one != other
}

/// The way that the model's run goes.
fn way(pair: &Pair, which: usize) -> u64 {
    let start = Start {
        sheet: pair.sheet.clone(),
        store: pair.stores[which].clone(),
        mode: pair.mode,
        fuel: pair.fuels[which],
    };
    start.run(&DOCUMENT).way
}

impl Counts {
    /// Counts a pair.
    pub(super) fn pair(&mut self) {
        self.pairs += 1;
    }

    /// Counts a pair that finished both, with the final stores.
    pub(super) fn finished(&mut self, pair: &Pair, ends: &[Vec<u8>; 2], answered: bool) {
        let finished = Finished {
            pair,
            ends: ends.each_ref().map(|end| Store::read(&pair.sheet, end)),
            answered,
        };
        for ((_, is_so), times) in KINDS.iter().zip(&mut self.times) {
            *times += u64::from(is_so(&finished));
        }
    }

    /// How many pairs were of each kind, by its name.
    pub fn each(&self) -> impl Iterator<Item = (&'static str, u64)> + '_ {
        KINDS.iter().map(|(name, _)| *name).zip(self.times)
    }

    /// Every kind.
    pub fn counted(&self) -> impl Iterator<Item = Counted> + '_ {
        self.each().map(|(name, times)| (name.into(), times))
    }
}
