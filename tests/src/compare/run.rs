//! What is compared of run.

use super::calls::Compared;
use super::divisions::{Divided, Divisions};
use super::{counted, hex, Times};
use crate::model::number::DONE;
use crate::model::rules::DOCUMENT;
use crate::model::run::run_watched;
use crate::model::store::STORE_ENTRY_BYTES;
use crate::model::{run, Call, Outcome};
use crate::shares::Counted;
use std::fmt;

/// How often each number came back, in all and by mode, and the divisions.
#[derive(Clone, Debug, Default)]
pub struct Histogram {
    pub all: Times,
    pub strict: Times,
    pub permissive: Times,
    pub divisions: Divisions,
}

impl Histogram {
    fn count(&mut self, mode: u32, number: u8) {
        let number = usize::from(number);
        self.all[number] += 1;
        match mode {
            0 => self.strict[number] += 1,
            1 => self.permissive[number] += 1,
            _ => {}
        }
    }

    /// Every number, success in both modes, and every kind of division.
    pub fn counted(&self) -> Vec<Counted> {
        let done = usize::from(DONE);
        let modes = [("strict", self.strict), ("permissive", self.permissive)];
        let by_mode = modes.map(|(mode, times)| {
            let did = format!("were {mode} and gave number {done}");
            (did, times[done])
        });
        let kinds = self.divisions.each();
        let divisions = kinds.flat_map(|(kind, [quotient, remainder])| {
            [
                (format!("had a / of {kind}"), quotient),
                (format!("had a % of {kind}"), remainder),
            ]
        });
        let numbers = counted(&NUMBERS, &self.all);
        numbers.chain(by_mode).chain(divisions).collect()
    }
}

/// Run gives 0, 10, load's, 8, 9, 11 and 12 to 16.
pub const NUMBERS: [usize; 20] = [
    0, 10, 1, 2, 3, 4, 19, 20, 21, 22, 6, 7, 8, 9, 11, 12, 13, 14, 15, 16,
];

impl Compared for Call {
    const NAME: &'static str = "call";

    const ENTRY_BYTES: usize = STORE_ENTRY_BYTES;

    type Histogram = Histogram;

    fn outcome(&self) -> Outcome {
        run(self)
    }

    fn counted(&self, histogram: &mut Histogram) -> Outcome {
        let divided = Divided::default();
        let watch = |operator, left, right| divided.see(operator, left, right);
        let outcome = run_watched(&DOCUMENT, self, &watch);
        histogram.count(self.mode, outcome.answer.number);
        histogram.divisions.count(&divided);
        outcome
    }

    fn sheet(&self) -> &[u8] {
        &self.sheet
    }

    fn output_before(&self) -> &[u8] {
        &self.output
    }

    fn describe(&self, out: &mut fmt::Formatter) -> fmt::Result {
        writeln!(out, "mode {}, fuel {}", self.mode, self.fuel)?;
        hex(out, "sheet", &self.sheet)?;
        hex(out, "store", &self.store)
    }
}

#[cfg(test)]
mod tests {
    use super::*;
    use crate::compare::calls::tests::*;
    use crate::shares::OF_RUNS;

    #[test]
    fn the_model_agrees_with_itself_and_the_generator() {
        let histogram = with_itself::<Call>(10_000);
        let Histogram {
            all,
            strict,
            permissive,
            ..
        } = histogram;
        let counted = NUMBERS.map(|number| all[number]);
        assert_eq!(counted.iter().sum::<u64>(), 10_000);
        assert!(counted.iter().all(|&times| times > 40), "{all:?}");
        let done = usize::from(DONE);
        assert!(strict[done] > 400 && permissive[done] > 400);
        let short = OF_RUNS.shortfalls(10_000, histogram.counted());
        assert_eq!(short, Vec::<String>::new());
    }

    #[test]
    fn what_did_not_come_is_named() {
        let mut histogram = with_itself::<Call>(10_000);
        histogram.all[16] = 24;
        histogram.permissive[usize::from(DONE)] = 0;
        assert_eq!(
            OF_RUNS.shortfalls(10_000, histogram.counted()),
            [
                "of 10000 runs only 24 gave number 16, fewer than 1 of 400",
                "of 10000 runs only 0 were permissive and gave number 0, fewer than 1 of 400",
            ]
        );
        let nothing = Histogram::default();
        let none = OF_RUNS.shortfalls(400, nothing.counted());
        let divisions = 2 * nothing.divisions.each().count();
        assert_eq!(none.len(), NUMBERS.len() + 2 + divisions);
        let division = "only 0 had a % of the least by above 0, exact";
        assert!(none.iter().any(|line| line.contains(division)));
    }

    #[test]
    fn all_of_a_run_is_compared() {
        every_bit_of_the_word_is_compared::<Call>();
        every_byte_of_memory_is_compared::<Call>();
        changed_inputs_are_a_difference::<Call>();
        a_difference_tells_how_to_replay_it::<Call>();
    }
}
