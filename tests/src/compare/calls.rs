//! The comparison of the model with others, call by call: the answer word and all
//! memory that was lent. The model is also held against what the generator knows
//! of the number.

use super::effect::Effect;
use super::hex;
use crate::generate::calls::{call_case, CallCase, Expected, Generated};
use crate::model::Outcome;
use std::fmt;
use std::ops::Range;

/// A kind of call that is compared.
pub trait Compared: Generated + Clone {
    /// What such a call is called where it can be replayed.
    const NAME: &'static str;

    /// The bytes of a field's entry in what such a call writes.
    const ENTRY_BYTES: usize;

    /// How often each number came back, and what else is counted.
    type Histogram: Default;

    /// What the model makes of the call.
    fn outcome(&self) -> Outcome;

    /// The same, counted.
    fn counted(&self, histogram: &mut Self::Histogram) -> Outcome;

    fn sheet(&self) -> &[u8];

    /// What stands in the output before the call.
    fn output_before(&self) -> &[u8];

    /// Writes what the call asks, a line each.
    fn describe(&self, out: &mut fmt::Formatter) -> fmt::Result;

    /// What this outcome makes of the call's memory.
    fn effect(&self, outcome: &Outcome) -> Effect {
        Effect::of(self.output_before(), outcome)
    }

    /// What the model makes of the call's memory.
    fn right(&self) -> Effect {
        self.effect(&self.outcome())
    }
}

/// A call on which the model, the other and the generator don't agree.
pub struct Difference<C> {
    pub seed: u64,
    pub index: u64,
    pub call: C,
    pub expected: Expected,
    pub model: Outcome,
    pub found: Effect,
}

/// Compares the model with another on the calls of these indexes.
pub fn compare<C: Compared>(
    seed: u64,
    indexes: Range<u64>,
    other: &dyn Fn(&C) -> Effect,
) -> Result<C::Histogram, Box<Difference<C>>> {
    let mut histogram = C::Histogram::default();
    for index in indexes {
        let CallCase { call, expected } = call_case::<C>(seed, index);
        let model = call.counted(&mut histogram);
        let found = other(&call);
        if found != call.effect(&model) || !expected.allows(model.answer.number) {
            return Err(Box::new(Difference {
                seed,
                index,
                call,
                expected,
                model,
                found,
            }));
        }
    }
    Ok(histogram)
}

impl<C: Compared> fmt::Display for Difference<C> {
    fn fmt(&self, out: &mut fmt::Formatter) -> fmt::Result {
        let Difference {
            call, model, found, ..
        } = self;
        let (seed, index) = (self.seed, self.index);
        writeln!(out, "difference at seed {seed}, {} {index}", C::NAME)?;
        let word = model.answer.word();
        writeln!(out, "model:     {word:#018x}, {:?}", model.answer)?;
        writeln!(out, "archive:   {:#018x}", found.word)?;
        writeln!(out, "generator: {:?}", self.expected)?;
        if !found.inputs_kept {
            writeln!(out, "the archive wrote into what it may only read")?;
        }
        let right = call.effect(model);
        if found.guards() != right.guards() {
            writeln!(out, "the archive wrote outside the output")?;
        }
        call.describe(out)?;
        hex(out, "output before", call.output_before())?;
        hex(out, "output, model", right.output())?;
        hex(out, "output, archive", found.output())
    }
}

/// What must hold of the comparison of any kind of call.
#[cfg(test)]
pub mod tests {
    use super::*;

    /// The model against itself on so many calls.
    pub fn with_itself<C: Compared>(calls: u64) -> C::Histogram {
        let histogram = compare(1, 0..calls, &C::right);
        histogram.unwrap_or_else(|difference| panic!("{difference}"))
    }

    pub fn every_bit_of_the_word_is_compared<C: Compared>() {
        for bit in 0..64 {
            let other = |call: &C| Effect {
                word: call.right().word ^ 1 << bit,
                ..call.right()
            };
            assert!(compare(1, 0..1, &other).is_err(), "bit {bit}");
        }
    }

    pub fn every_byte_of_memory_is_compared<C: Compared>() {
        let length = call_case::<C>(1, 0).call.right().memory.len();
        for at in 0..length {
            let other = |call: &C| {
                let mut effect = call.right();
                effect.memory[at] ^= 1;
                effect
            };
            assert!(compare(1, 0..1, &other).is_err(), "byte {at}");
        }
    }

    pub fn changed_inputs_are_a_difference<C: Compared>() {
        let other = |call: &C| Effect {
            inputs_kept: false,
            ..call.right()
        };
        assert!(compare(1, 0..1, &other).is_err());
    }

    pub fn a_difference_tells_how_to_replay_it<C: Compared>() {
        let other = |call: &C| Effect {
            word: 0,
            ..call.right()
        };
        let Err(difference) = compare(5, 0..1000, &other) else {
            panic!("some calls are refused");
        };
        let text = difference.to_string();
        let replayed = format!("seed 5, {} {}", C::NAME, difference.index);
        assert!(text.contains(&replayed));
        let again = call_case::<C>(5, difference.index).call;
        assert!(again.right() == difference.call.right());
    }
}
