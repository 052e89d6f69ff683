//! Bytes that are hardly sheets: random bytes of random lengths, one value over
//! and over, and plausible counts before random entries.

use crate::random::Random;

/// Random garbage.
pub fn bytes(random: &mut Random) -> Vec<u8> {
    let length = length(random);
    match random.below(8) {
        0 | 1 => random.bytes(length),
        2 => vec![random.byte(); length],
        3 => vec![random.pick(&[0, 1, 2, 0xff]); length],
        _ => with_counts(random),
    }
}

/// Short ones mostly; now and then the longest that a two-byte length tells.
fn length(random: &mut Random) -> usize {
    match random.below(64) {
        0 => random.pick(&[65_535, 65_534, 65_536, 9_768, 9_769]),
        1..8 => random.below(10_000),
        8..32 => random.below(200),
        _ => random.below(8),
    }
}

/// Sections with counts near their limits and random entries, cut anywhere.
fn with_counts(random: &mut Random) -> Vec<u8> {
    let mut bytes = Vec::new();
    for (most, entry_bytes) in [(16, 2), (64, 8), (256, 4), (1024, 8)] {
        let count = count(most, random);
        bytes.extend((count as u16).to_le_bytes());
        bytes.extend(random.bytes((count * entry_bytes).min(600)));
        if random.once_in(12) {
            break;
        }
    }
    if random.once_in(4) {
        bytes.truncate(random.between(0, bytes.len()));
    }
    bytes
}

fn count(most: usize, random: &mut Random) -> usize {
    match random.below(16) {
        0 => random.pick(&[0, most + 1, 65_535]),
        1 => most,
        2 => random.two_bytes().into(),
        _ => random.spread(most),
    }
}
