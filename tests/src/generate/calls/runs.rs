//! Calls of run: sheets made to be run and any others, stores that fit, both
//! modes and fuels from nothing to the most.

use super::{output_of, stores, Damage, Expected, Generated};
use crate::model::rules::MOST_FUEL;
use crate::model::{Call, Sheet};
use crate::random::Random;

impl Generated for Call {
    const GROUPS: &'static [&'static [Damage<Call>]] = Damage::OF_RUN;

    fn random(seed: u64, index: u64) -> Random {
        Random::of_call(seed, index)
    }

    fn undamaged(bytes: Vec<u8>, sheet: &Sheet, random: &mut Random) -> (Call, Expected) {
        let mode = random.below(2) as u32;
        let store = stores::store(sheet, mode == 1, random).bytes();
        let call = Call {
            sheet: bytes,
            output: output_of(store.len(), random),
            store,
            mode,
            fuel: fuel(sheet, random),
        };
        (call, Expected::Runs)
    }

    fn store(&mut self) -> &mut Vec<u8> {
        &mut self.store
    }

    fn output(&mut self) -> &mut Vec<u8> {
        &mut self.output
    }

    fn needed(&self) -> usize {
        self.store.len()
    }
}

/// Little fuel mostly; much where no loop can use it up; once in a while much
/// for a small loop.
pub fn fuel(sheet: &Sheet, random: &mut Random) -> u32 {
    let cheap = sheet.nodes.iter().all(|node| node.kind != WHILE);
    let small = sheet.nodes.len() < 8 && sheet.levels.count() < 5;
    let fuel = match random.below(16) {
        0 => random.below(3),
        1..5 => random.below(12),
        5..10 => random.between(8, 60),
        10..13 if cheap => MOST_FUEL as usize - random.pick(&[0, 0, 0, 1, 1_000]),
        13 if small && random.once_in(2) => random.between(65_000, 70_000),
        13 if small && random.once_in(3) => MOST_FUEL as usize,
        13 | 14 => random.between(400, 3_000),
        _ => random.between(40, 400),
    };
    fuel as u32
}

/// The kind of a while.
const WHILE: u8 = 9;
