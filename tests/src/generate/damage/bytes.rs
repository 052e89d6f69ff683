//! Damages to the written bytes: lengths, and changes that may do anything.

use super::{Change, Damage};
use crate::generate::write::Written;
use crate::model::number;
use crate::random::Random;

/// Row 1.
pub const LENGTHS: &[Damage] = &[
    Damage::to_bytes("a byte short", number::SHEET_LENGTH, byte_short),
    Damage::to_bytes("cut anywhere", number::SHEET_LENGTH, cut_anywhere),
    Damage::to_bytes("cut at a count", number::SHEET_LENGTH, cut_at_a_count),
    Damage::to_bytes("a byte left", number::SHEET_LENGTH, byte_left),
    Damage::to_bytes("an entry left", number::SHEET_LENGTH, entry_left),
    Damage::to_bytes("many bytes left", number::SHEET_LENGTH, many_bytes_left),
];

/// Changes that may bring about any number.
pub const UNSURE: &[Damage] = &[
    Damage::unsure("a bit flipped", Change::Bytes(bit_flipped)),
    Damage::unsure("a byte replaced", Change::Bytes(byte_replaced)),
    Damage::unsure("a byte removed", Change::Bytes(byte_removed)),
    Damage::unsure("a byte inserted", Change::Bytes(byte_inserted)),
    Damage::unsure("a count off by one", Change::Bytes(count_off_by_one)),
    Damage::unsure("a count in big-endian", Change::Bytes(count_big_endian)),
];

fn byte_short(written: &mut Written, _: &mut Random) -> bool {
    written.bytes.pop().is_some()
}

fn cut_anywhere(written: &mut Written, random: &mut Random) -> bool {
    let length = written.bytes.len();
    if length > 0 {
        written.bytes.truncate(random.below(length));
    }
    length > 0
}

/// Before, inside or after a count.
fn cut_at_a_count(written: &mut Written, random: &mut Random) -> bool {
    let end = random.pick(&written.counts) + random.between(0, 2);
    let cuts = end < written.bytes.len();
    written.bytes.truncate(end);
    cuts
}

fn byte_left(written: &mut Written, random: &mut Random) -> bool {
    written.bytes.push(random.pick(&[0, 0, 1, 0xff]));
    true
}

/// The last bytes once more, as many as an entry has.
fn entry_left(written: &mut Written, random: &mut Random) -> bool {
    let length = written.bytes.len();
    let entry = length.min(random.pick(&[2, 4, 8]));
    written.bytes.extend_from_within(length - entry..);
    entry > 0
}

/// Also 65,536 of them, which a length in two bytes wouldn't show.
fn many_bytes_left(written: &mut Written, random: &mut Random) -> bool {
    let left = match random.once_in(4) {
        true => 65_536,
        false => random.between(2, 300),
    };
    let length = written.bytes.len() + left;
    written.bytes.resize(length, random.byte());
    true
}

/// A place, near the front more often, since counts and levels are few.
fn somewhere(written: &Written, random: &mut Random) -> Option<usize> {
    let length = written.bytes.len();
    (length > 0).then(|| random.spread(length) - 1)
}

fn bit_flipped(written: &mut Written, random: &mut Random) -> bool {
    somewhere(written, random)
        .map(|place| written.bytes[place] ^= 1 << random.below(8))
        .is_some()
}

fn byte_replaced(written: &mut Written, random: &mut Random) -> bool {
    somewhere(written, random)
        .map(|place| written.bytes[place] = random.byte())
        .is_some()
}

fn byte_removed(written: &mut Written, random: &mut Random) -> bool {
    somewhere(written, random)
        .map(|place| written.bytes.remove(place))
        .is_some()
}

fn byte_inserted(written: &mut Written, random: &mut Random) -> bool {
    somewhere(written, random)
        .map(|place| written.bytes.insert(place, random.byte()))
        .is_some()
}

fn count_off_by_one(written: &mut Written, random: &mut Random) -> bool {
    let change = random.pick(&[1, u16::MAX]);
    let count = written.count(random.below(4));
    count
        .map(|count| {
            let changed = u16::from_le_bytes(*count).wrapping_add(change);
            *count = changed.to_le_bytes();
        })
        .is_some()
}

fn count_big_endian(written: &mut Written, random: &mut Random) -> bool {
    let count = written.count(random.below(4));
    count.map(|count| count.reverse()).is_some()
}
