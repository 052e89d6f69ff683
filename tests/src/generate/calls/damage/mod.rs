//! Damages to calls: each part of rows 8 to 11 and 17 broken. Every damage is sure
//! to bring about its number, as long as no row before it is broken too.

mod hand_outs;
mod lists;
mod runs;

use self::lists::*;
use super::Generated;
use crate::generate::levels::MOST_LEVELS;
use crate::model::marks::{MOST_MARK, PARTIAL};
use crate::model::number::{MARK_WRONG, OUT_SHORT, STORE_MISFIT};
use crate::model::sheet::Sheet;
use crate::model::store::{mark_at, STORE_ENTRY_BYTES};
use crate::random::Random;

/// How a damage is done; false if it doesn't fit the call, which then stays.
enum Change<C> {
    Call(CallChange<C>),
    /// To one of its lists, a store or a request,
    List(List<C>, ListChange),
    /// or to that list's count.
    Count(List<C>, CountChange),
}

type CallChange<C> = fn(&mut C, &Sheet, &mut Random) -> bool;
type List<C> = fn(&mut C) -> &mut Vec<u8>;
type ListChange = fn(&mut Vec<u8>, &mut Random) -> bool;
type CountChange = fn(usize, &mut Random) -> usize;

/// One way to damage a call whose sheet can be read.
pub struct Damage<C> {
    pub name: &'static str,
    pub number: u8,
    change: Change<C>,
}

impl<C> Damage<C> {
    const fn new(name: &'static str, number: u8, change: Change<C>) -> Damage<C> {
        Damage {
            name,
            number,
            change,
        }
    }

    const fn to_call(name: &'static str, number: u8, change: CallChange<C>) -> Damage<C> {
        Damage::new(name, number, Change::Call(change))
    }

    /// Does it; false if it doesn't fit the call, which then stays.
    pub fn change(&self, call: &mut C, sheet: &Sheet, random: &mut Random) -> bool {
        match self.change {
            Change::Call(change) => change(call, sheet, random),
            Change::List(list, change) => change(list(call), random),
            Change::Count(list, change) => {
                let list = list(call);
                let before = count(list);
                set_count(list, change(before, random));
                count(list) != before
            }
        }
    }
}

/// Damages that fit any call which has a store and an output.
impl<C: Generated> Damage<C> {
    const TO_OUTPUTS: &'static [Damage<C>] = &[
        Damage::to_call("an output a byte short", OUT_SHORT, output_byte_short),
        Damage::to_call("an output cut anywhere", OUT_SHORT, output_cut),
        Damage::to_call("no output", OUT_SHORT, no_output),
    ];

    const fn to_store(name: &'static str, change: ListChange) -> Damage<C> {
        Damage::new(name, STORE_MISFIT, Change::List(C::store, change))
    }

    const fn to_store_count(name: &'static str, change: CountChange) -> Damage<C> {
        Damage::new(name, STORE_MISFIT, Change::Count(C::store, change))
    }

    const TO_STORES: &'static [Damage<C>] = &[
        Damage::to_store("a store a byte short", byte_short),
        Damage::to_store("a store cut anywhere", cut),
        Damage::to_store("a byte behind the store", byte_left),
        Damage::to_store("many bytes behind the store", bytes_left),
        Damage::to_store("no store", nothing),
        Damage::to_store("garbage for a store", garbage),
        Damage::to_store("a field less", field_less),
        Damage::to_store("a field more", field_more),
        Damage::to_store_count("a store's count off by one", count_off_by_one),
        Damage::to_store_count("a store's count's high byte", count_high_byte),
        Damage::to_store_count("a store's count in big-endian", count_big_endian),
        Damage::to_store_count("any count of the store", any_count),
    ];

    const MARK_ABOVE_31: Damage<C> = Damage::to_call("a mark above 31", MARK_WRONG, mark_above_31);
    const UNKNOWN_LEVEL: Damage<C> =
        Damage::to_call("a mark of an unknown level", MARK_WRONG, unknown_level);
    const FIRST_UNKNOWN_LEVEL: Damage<C> =
        Damage::to_call("the first unknown level", MARK_WRONG, first_unknown_level);
}

fn output_byte_short<C: Generated>(call: &mut C, _: &Sheet, _: &mut Random) -> bool {
    let short = call.needed() - 1;
    call.output().truncate(short);
    true
}

fn output_cut<C: Generated>(call: &mut C, _: &Sheet, random: &mut Random) -> bool {
    let short = random.below(call.needed());
    call.output().truncate(short);
    true
}

fn no_output<C: Generated>(call: &mut C, _: &Sheet, _: &mut Random) -> bool {
    call.output().clear();
    true
}

/// Count and length in step.
fn field_less(store: &mut Vec<u8>, _: &mut Random) -> bool {
    let fields = count(store);
    store.truncate(store.len() - STORE_ENTRY_BYTES);
    set_count(store, fields - 1);
    true
}

/// Count and length in step.
fn field_more(store: &mut Vec<u8>, _: &mut Random) -> bool {
    let fields = count(store);
    store.extend_from_within(store.len() - STORE_ENTRY_BYTES..);
    set_count(store, fields + 1);
    true
}

/// One of so many, the first or the last one more often than others.
fn some_of(count: usize, random: &mut Random) -> usize {
    match random.below(4) {
        0 => 0,
        1 => count - 1,
        _ => random.below(count),
    }
}

/// The mark of a field.
fn some_mark<'a, C: Generated>(call: &'a mut C, sheet: &Sheet, random: &mut Random) -> &'a mut u8 {
    let field = some_of(sheet.fields.len(), random);
    &mut call.store()[mark_at(field)]
}

/// Any such byte, or a known mark with a bit more.
fn mark_above_31<C: Generated>(call: &mut C, sheet: &Sheet, random: &mut Random) -> bool {
    const LEAST: u8 = MOST_MARK + 1;
    let any = random.between(LEAST.into(), 255) as u8;
    let bit = LEAST << random.below(3);
    let mark = some_mark(call, sheet, random);
    *mark = random.pick(&[*mark | bit, LEAST, 255, any]);
    true
}

/// Puts a level and, where the mode lets it, a partial bit at random.
fn put_level<C: Generated>(call: &mut C, sheet: &Sheet, random: &mut Random, level: usize) {
    let partial = PARTIAL * u8::from(random.once_in(2));
    *some_mark(call, sheet, random) = level as u8 + partial;
}

fn unknown_level<C: Generated>(call: &mut C, sheet: &Sheet, random: &mut Random) -> bool {
    let levels = sheet.levels.count();
    if levels < MOST_LEVELS {
        let level = random.between(levels, MOST_LEVELS - 1);
        put_level(call, sheet, random, level);
    }
    levels < MOST_LEVELS
}

fn first_unknown_level<C: Generated>(call: &mut C, sheet: &Sheet, random: &mut Random) -> bool {
    let levels = sheet.levels.count();
    if levels < MOST_LEVELS {
        put_level(call, sheet, random, levels);
    }
    levels < MOST_LEVELS
}
