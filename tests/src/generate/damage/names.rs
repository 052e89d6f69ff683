//! Damages to names: each part of row 4 broken.

use super::Damage;
use crate::model::names::characters;
use crate::model::number;
use crate::model::sheet::{Name, Sheet};
use crate::random::Random;

/// Row 4.
pub const NAMES: &[Damage] = &[
    Damage::to_sheet("a bad first character", number::NAME_WRONG, bad_first),
    Damage::to_sheet("a bad later character", number::NAME_WRONG, bad_later),
    Damage::to_sheet("a byte after a zero byte", number::NAME_WRONG, after_a_zero),
    Damage::to_sheet("a zero byte inside", number::NAME_WRONG, zero_inside),
    Damage::to_sheet("a zero byte first", number::NAME_WRONG, zero_first),
    Damage::to_sheet("an empty name", number::NAME_WRONG, empty),
    Damage::to_sheet("a name twice", number::NAME_WRONG, twice),
];

/// Neighbours of the allowed ranges and others.
const BAD_ANYWHERE: &[u8] = b"/:`{@[^AZ -~\x01\x1f\x7f\x80\xe1\xfa\xff";

/// Allowed later, not first.
const BAD_FIRST: &[u8] = b"059_";

fn some_name<'a>(sheet: &'a mut Sheet, random: &mut Random) -> &'a mut Name {
    let field = random.below(sheet.fields.len());
    &mut sheet.fields[field]
}

fn bad_first(sheet: &mut Sheet, random: &mut Random) -> bool {
    let choices = random.pick(&[BAD_ANYWHERE, BAD_FIRST]);
    some_name(sheet, random)[0] = random.pick(choices);
    true
}

fn bad_later(sheet: &mut Sheet, random: &mut Random) -> bool {
    let name = some_name(sheet, random);
    let place = random.between(1, characters(name).len().clamp(1, 7));
    name[place] = random.pick(BAD_ANYWHERE);
    true
}

fn after_a_zero(sheet: &mut Sheet, random: &mut Random) -> bool {
    let name = some_name(sheet, random);
    let zero = characters(name).len();
    if zero >= 7 {
        return false;
    }
    name[random.between(zero + 1, 7)] = random.pick(b"az09_\x01\xff");
    true
}

fn zero_inside(sheet: &mut Sheet, random: &mut Random) -> bool {
    let name = some_name(sheet, random);
    let length = characters(name).len();
    if length < 3 {
        return false;
    }
    name[random.between(1, length - 2)] = 0;
    true
}

fn zero_first(sheet: &mut Sheet, random: &mut Random) -> bool {
    some_name(sheet, random)[0] = 0;
    true
}

fn empty(sheet: &mut Sheet, random: &mut Random) -> bool {
    *some_name(sheet, random) = [0; 8];
    true
}

fn twice(sheet: &mut Sheet, random: &mut Random) -> bool {
    let count = sheet.fields.len();
    if count < 2 {
        return false;
    }
    let first = random.below(count);
    let second = (first + random.between(1, count - 1)) % count;
    sheet.fields[second] = sheet.fields[first];
    true
}
