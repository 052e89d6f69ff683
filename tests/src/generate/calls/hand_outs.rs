//! Calls of hand-out: stores with and without partial fields, all readers, and
//! requests of none to 64 fields, with repeats, that ask a partial field at or below
//! the reader early, late or not at all.

use super::{output_of, stores, Damage, Expected, Generated};
use crate::model::hand_out::rules::{length, MOST_ASKED};
use crate::model::hand_out::{asked, request};
use crate::model::marks::Mark;
use crate::model::number::{DONE, PARTIAL_ASKED};
use crate::model::store::Store;
use crate::model::{HandOut, Sheet};
use crate::random::Random;

impl Generated for HandOut {
    const GROUPS: &'static [&'static [Damage<HandOut>]] = Damage::OF_HAND_OUT;

    fn random(seed: u64, index: u64) -> Random {
        Random::of_hand_out(seed, index)
    }

    fn undamaged(bytes: Vec<u8>, sheet: &Sheet, random: &mut Random) -> (HandOut, Expected) {
        let store = match random.once_in(3) {
            true => stores::mixed(sheet, random),
            false => stores::store(sheet, true, random),
        };
        let reader = random.below(sheet.levels.count());
        let fields = fields(sheet, reader, &store, random);
        let mut marks = fields.iter().map(|&field| store.fields[field].mark);
        let refused = marks.any(|mark| refuses(sheet, reader, mark));
        let call = HandOut {
            sheet: bytes,
            store: store.bytes(),
            reader: reader as u32,
            output: output_of(length(fields.len()), random),
            request: request(&fields),
        };
        let number = if refused { PARTIAL_ASKED } else { DONE };
        (call, Expected::Number(number))
    }

    fn store(&mut self) -> &mut Vec<u8> {
        &mut self.store
    }

    fn output(&mut self) -> &mut Vec<u8> {
        &mut self.output
    }

    fn needed(&self) -> usize {
        length(asked(&self.request).count())
    }
}

/// Whether a field of this mark is partial at or below the reader.
fn refuses(sheet: &Sheet, reader: usize, mark: Mark) -> bool {
    mark.partial && sheet.levels.at_or_below(mark.level, reader)
}

/// The fields of a store whose mark is so.
fn fields_of(store: &Store, so: impl Fn(Mark) -> bool) -> Vec<usize> {
    let fields = 0..store.fields.len();
    fields
        .filter(|&field| so(store.fields[field].mark))
        .collect()
}

/// The fields that are asked: any, only such as don't refuse, or such up to one that
/// does and any from there on. Of those that don't, partial ones often.
fn fields(sheet: &Sheet, reader: usize, store: &Store, random: &mut Random) -> Vec<usize> {
    let refuses = |mark| refuses(sheet, reader, mark);
    let any = fields_of(store, |_| true);
    let refusing = fields_of(store, refuses);
    let others = fields_of(store, |mark| !refuses(mark));
    let withheld = fields_of(store, |mark| mark.partial && !refuses(mark));
    let count = match random.below(16) {
        0 => 0,
        1 => MOST_ASKED,
        2..9 => random.between(1, 4),
        _ => random.spread(MOST_ASKED),
    };
    let way = random.below(3);
    let first_refusing = match way {
        1 => count,
        _ if random.once_in(3) => count.max(1) - 1,
        _ => random.below(count + 1),
    };
    let mut ask = |position: usize| {
        let among = match position {
            _ if way == 0 || position > first_refusing => &any,
            _ if position == first_refusing => &refusing,
            _ if random.once_in(3) && !withheld.is_empty() => &withheld,
            _ => &others,
        };
        random.pick_any(among)
    };
    (0..count).filter_map(&mut ask).collect()
}
