//! Damages to calls of run.

use super::{some_mark, Damage};
use crate::model::marks::PARTIAL;
use crate::model::number::{MARK_WRONG, MODE_OR_FUEL};
use crate::model::rules::MOST_FUEL;
use crate::model::sheet::Sheet;
use crate::model::store::marks_mut;
use crate::model::Call;
use crate::random::Random;

/// Damages to calls of run.
impl Damage<Call> {
    /// By the number that they bring about, the last in the order of checks first.
    pub const OF_RUN: &'static [&'static [Damage<Call>]] = &[
        Damage::TO_OUTPUTS,
        &[
            Damage::MARK_ABOVE_31,
            Damage::UNKNOWN_LEVEL,
            Damage::FIRST_UNKNOWN_LEVEL,
            Damage::to_call("a partial mark in a strict run", MARK_WRONG, strict_partial),
            Damage::to_call("only partial marks", MARK_WRONG, only_partial),
        ],
        Damage::TO_STORES,
        &[
            Damage::to_call("an unknown mode", MODE_OR_FUEL, unknown_mode),
            Damage::to_call("a mode's high bytes", MODE_OR_FUEL, mode_high_bytes),
            Damage::to_call("fuel over by little", MODE_OR_FUEL, fuel_over_by_little),
            Damage::to_call("fuel far over", MODE_OR_FUEL, fuel_far_over),
        ],
    ];
}

fn strict_partial(call: &mut Call, sheet: &Sheet, random: &mut Random) -> bool {
    call.mode = 0;
    *some_mark(call, sheet, random) |= PARTIAL;
    true
}

fn only_partial(call: &mut Call, _: &Sheet, _: &mut Random) -> bool {
    call.mode = 0;
    marks_mut(&mut call.store).for_each(|mark| *mark |= PARTIAL);
    true
}

fn unknown_mode(call: &mut Call, _: &Sheet, random: &mut Random) -> bool {
    let any = random.word() as u32 | 2;
    call.mode = random.pick(&[2, 2, 3, 255, u32::MAX, any]);
    true
}

/// The lowest byte, or half, is a known mode.
fn mode_high_bytes(call: &mut Call, _: &Sheet, random: &mut Random) -> bool {
    call.mode |= 1 << random.between(8, 31);
    true
}

fn fuel_over_by_little(call: &mut Call, _: &Sheet, random: &mut Random) -> bool {
    call.fuel = MOST_FUEL + random.pick(&[1, 1, 2, 100, 48_576]);
    true
}

/// Also fuel whose low bytes alone would be little.
fn fuel_far_over(call: &mut Call, _: &Sheet, random: &mut Random) -> bool {
    let any = random.between(MOST_FUEL as usize + 1, u32::MAX as usize) as u32;
    let high = 1 << random.between(20, 31) | random.below(100) as u32;
    call.fuel = random.pick(&[u32::MAX, any, high]);
    true
}
