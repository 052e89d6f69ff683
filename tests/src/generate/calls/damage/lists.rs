//! Damages to what begins with a count, a store or a request: length and count
//! then don't fit each other, or what they are for.

use crate::generate::valid::MOST_FIELDS;
use crate::random::Random;

pub fn byte_short(list: &mut Vec<u8>, _: &mut Random) -> bool {
    list.pop().is_some()
}

pub fn cut(list: &mut Vec<u8>, random: &mut Random) -> bool {
    list.truncate(random.below(list.len()));
    true
}

pub fn nothing(list: &mut Vec<u8>, _: &mut Random) -> bool {
    list.clear();
    true
}

pub fn byte_left(list: &mut Vec<u8>, random: &mut Random) -> bool {
    list.push(random.pick(&[0, 1, 0xff]));
    true
}

/// Also 65,536 of them, which a length in two bytes wouldn't show.
pub fn bytes_left(list: &mut Vec<u8>, random: &mut Random) -> bool {
    let left = match random.once_in(8) {
        true => 65_536,
        false => random.between(2, 30),
    };
    let length = list.len() + left;
    list.resize(length, random.byte());
    true
}

/// Random bytes, with a count that is none.
pub fn garbage(list: &mut Vec<u8>, random: &mut Random) -> bool {
    let length = random.below(200);
    *list = random.bytes(length);
    if let Some(high) = list.get_mut(1) {
        *high |= 1;
    }
    true
}

fn count_bytes(list: &mut [u8]) -> &mut [u8; 2] {
    list.first_chunk_mut().expect("a list has a count")
}

pub fn count(list: &mut [u8]) -> usize {
    u16::from_le_bytes(*count_bytes(list)).into()
}

pub fn set_count(list: &mut [u8], to: usize) {
    *count_bytes(list) = (to as u16).to_le_bytes();
}

pub fn count_off_by_one(count: usize, random: &mut Random) -> usize {
    random.pick(&[count.saturating_sub(1), count + 1])
}

pub fn count_high_byte(count: usize, random: &mut Random) -> usize {
    count | random.pick(&[1, 1, 2, 128, 255]) << 8
}

pub fn count_big_endian(count: usize, _: &mut Random) -> usize {
    (count as u16).swap_bytes().into()
}

pub fn any_count(_: usize, random: &mut Random) -> usize {
    random.pick(&[0, 1, MOST_FIELDS, MOST_FIELDS + 1, 65_535])
}
