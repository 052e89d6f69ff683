//! Random names of fields: valid, distinct, of 1 to 8 characters. Many are
//! close to another one: a character changed, dropped or added.

use crate::model::names::characters;
use crate::model::sheet::Name;
use crate::random::Random;

const FIRST: &[u8] = b"azbqmy";
const LATER: &[u8] = b"az09_bkx18";

fn letter(random: &mut Random) -> u8 {
    match random.once_in(2) {
        true => random.pick(FIRST),
        false => random.between(b'a'.into(), b'z'.into()) as u8,
    }
}

fn later(random: &mut Random) -> u8 {
    match random.once_in(3) {
        true => letter(random),
        false => random.pick(LATER),
    }
}

/// A valid name of this length.
pub fn name(length: usize, random: &mut Random) -> Name {
    let mut name = [0; 8];
    name[0] = letter(random);
    for byte in &mut name[1..length] {
        *byte = later(random);
    }
    name
}

/// A valid name that differs from `old` in one character or in its length.
fn close_to(old: &Name, random: &mut Random) -> Name {
    let length = characters(old).len();
    let mut name = *old;
    match random.below(3) {
        0 if length < 8 => name[length] = later(random),
        1 if length > 1 => name[length - 1] = 0,
        _ if length > 1 => name[random.between(1, length - 1)] = later(random),
        _ => name[0] = letter(random),
    }
    name
}

/// A valid name that is not among `names`.
pub fn new_name(names: &[Name], random: &mut Random) -> Name {
    loop {
        let name = match names.last() {
            Some(last) if random.once_in(3) => close_to(last, random),
            _ => name(random.between(1, 8), random),
        };
        if !names.contains(&name) {
            return name;
        }
    }
}

/// This many valid names, all different.
pub fn names(count: usize, random: &mut Random) -> Vec<Name> {
    let mut names = Vec::with_capacity(count);
    while names.len() < count {
        names.push(new_name(&names, random));
    }
    names
}
