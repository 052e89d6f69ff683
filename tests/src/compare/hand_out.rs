//! What is compared of hand-out.

use super::calls::Compared;
use super::partial_asked::PartialAsked;
use super::{counted, hex, Times};
use crate::model::hand_out::hand_out_watched;
use crate::model::hand_out::rules::{ANSWER_ENTRY_BYTES, DOCUMENT};
use crate::model::{hand_out, HandOut, Outcome};
use crate::shares::Counted;
use std::fmt;

/// How often each number came back, and the partial fields asked.
#[derive(Clone, Debug, Default)]
pub struct Histogram {
    pub all: Times,
    pub partial_asked: PartialAsked,
}

impl Histogram {
    /// Every number, and every kind of partial fields asked.
    pub fn counted(&self) -> Vec<Counted> {
        let kinds = self.partial_asked.each();
        let kinds = kinds.map(|(kind, times)| (format!("had {kind}"), times));
        counted(&NUMBERS, &self.all).chain(kinds).collect()
    }
}

/// Hand-out gives 0, load's, 8, 9, 17, 11 and 18.
pub const NUMBERS: [usize; 16] = [0, 1, 2, 3, 4, 19, 20, 21, 22, 6, 7, 8, 9, 17, 11, 18];

impl Compared for HandOut {
    const NAME: &'static str = "hand-out";

    const ENTRY_BYTES: usize = ANSWER_ENTRY_BYTES;

    type Histogram = Histogram;

    fn outcome(&self) -> Outcome {
        hand_out(self)
    }

    fn counted(&self, histogram: &mut Histogram) -> Outcome {
        let watch = &mut |asked: &_| histogram.partial_asked.count(asked);
        let outcome = hand_out_watched(&DOCUMENT, self, watch);
        histogram.all[usize::from(outcome.answer.number)] += 1;
        outcome
    }

    fn sheet(&self) -> &[u8] {
        &self.sheet
    }

    fn output_before(&self) -> &[u8] {
        &self.output
    }

    fn describe(&self, out: &mut fmt::Formatter) -> fmt::Result {
        writeln!(out, "reader {}", self.reader)?;
        hex(out, "sheet", &self.sheet)?;
        hex(out, "store", &self.store)?;
        hex(out, "request", &self.request)
    }
}

#[cfg(test)]
mod tests {
    use super::*;
    use crate::compare::calls::tests::*;
    use crate::shares::OF_HAND_OUTS;

    #[test]
    fn the_model_agrees_with_itself_and_the_generator() {
        let Histogram { all, partial_asked } = with_itself::<HandOut>(10_000);
        let counted = NUMBERS.map(|number| all[number]);
        assert_eq!(counted.iter().sum::<u64>(), 10_000);
        assert!(counted.iter().all(|&times| times > 40), "{all:?}");
        for (kind, times) in partial_asked.each() {
            assert!(times > 60, "{kind}: {times}");
        }
    }

    #[test]
    fn what_did_not_come_is_named() {
        let mut histogram = with_itself::<HandOut>(10_000);
        let short = OF_HAND_OUTS.shortfalls(10_000, histogram.counted());
        assert_eq!(short, Vec::<String>::new());
        histogram.all[18] = 33;
        histogram.partial_asked = PartialAsked::default();
        let short = OF_HAND_OUTS.shortfalls(10_000, histogram.counted());
        assert_eq!(
            short[..2],
            [
                "of 10000 hand-outs only 33 gave number 18, fewer than 1 of 300",
                "of 10000 hand-outs only 0 had a partial field withheld beside an open one, \
                 fewer than 1 of 300",
            ]
        );
        assert_eq!(short.len(), 1 + histogram.partial_asked.each().count());
    }

    #[test]
    fn all_of_a_hand_out_is_compared() {
        every_bit_of_the_word_is_compared::<HandOut>();
        every_byte_of_memory_is_compared::<HandOut>();
        changed_inputs_are_a_difference::<HandOut>();
        a_difference_tells_how_to_replay_it::<HandOut>();
    }
}
