//! The comparison of the model's load with another judge of sheets, sheet by
//! sheet. The model is also held against the numbers that the generator knows.

use super::{hex, Times};
use crate::generate::{case, Case};
use crate::model::{self, Answer};
use std::fmt;
use std::ops::Range;

/// What a judge made of a sheet.
#[derive(Clone, Copy, Debug, PartialEq, Eq)]
pub struct Judgement {
    /// The answer word.
    pub word: u64,
    /// Whether the sheet's bytes are the same afterwards.
    pub sheet_kept: bool,
}

impl From<Answer> for Judgement {
    fn from(answer: Answer) -> Judgement {
        Judgement {
            word: answer.word(),
            sheet_kept: true,
        }
    }
}

/// Load gives 0, 1 to 4, 19 to 22, 6 and 7.
pub const NUMBERS: [usize; 11] = [0, 1, 2, 3, 4, 19, 20, 21, 22, 6, 7];

/// A sheet on which the model, the judge and the generator don't agree.
pub struct Difference {
    pub seed: u64,
    pub index: u64,
    pub sheet: Vec<u8>,
    pub model: Answer,
    pub expected: Option<u8>,
    pub judged: Judgement,
}

/// Compares the model with a judge on the sheets of these indexes.
pub fn compare(
    seed: u64,
    indexes: Range<u64>,
    judge: &dyn Fn(&[u8]) -> Judgement,
) -> Result<Times, Box<Difference>> {
    let mut histogram = Times::default();
    for index in indexes {
        let Case { bytes, expected } = case(seed, index);
        let model = model::load(&bytes);
        let judged = judge(&bytes);
        if judged != model.into() || expected.is_some_and(|number| number != model.number) {
            return Err(Box::new(Difference {
                seed,
                index,
                sheet: bytes,
                model,
                expected,
                judged,
            }));
        }
        histogram[usize::from(model.number)] += 1;
    }
    Ok(histogram)
}

impl fmt::Display for Difference {
    fn fmt(&self, out: &mut fmt::Formatter) -> fmt::Result {
        let Judgement { word, sheet_kept } = self.judged;
        writeln!(
            out,
            "difference at seed {}, index {}",
            self.seed, self.index
        )?;
        writeln!(
            out,
            "model:     {:#018x}, {:?}",
            self.model.word(),
            self.model
        )?;
        writeln!(out, "archive:   {word:#018x}")?;
        if let Some(number) = self.expected {
            writeln!(out, "generator: number {number}")?;
        }
        if !sheet_kept {
            writeln!(out, "the archive wrote into the sheet")?;
        }
        hex(out, "sheet", &self.sheet)
    }
}

#[cfg(test)]
mod tests {
    use super::*;
    use crate::model::number;

    #[test]
    fn the_model_agrees_with_itself_and_the_generator() {
        let histogram = compare(1, 0..3000, &|bytes| model::load(bytes).into());
        let histogram = histogram.unwrap_or_else(|difference| panic!("{difference}"));
        let counted = NUMBERS.map(|number| histogram[number]);
        assert_eq!(counted.iter().sum::<u64>(), 3000);
        assert!(counted.iter().all(|&times| times > 10), "{histogram:?}");
    }

    #[test]
    fn every_bit_of_the_word_is_compared() {
        for bit in 0..64 {
            let judge = |bytes: &[u8]| Judgement {
                word: model::load(bytes).word() ^ 1 << bit,
                sheet_kept: true,
            };
            assert!(compare(1, 0..1, &judge).is_err(), "bit {bit}");
        }
    }

    #[test]
    fn a_changed_sheet_is_a_difference() {
        let judge = |bytes: &[u8]| Judgement {
            sheet_kept: false,
            ..model::load(bytes).into()
        };
        assert!(compare(1, 0..1, &judge).is_err());
    }

    #[test]
    fn a_difference_tells_how_to_replay_it() {
        let judge = |_: &[u8]| Answer::plain(number::DONE).into();
        let difference = compare(5, 0..1000, &judge).expect_err("damaged sheets");
        let text = difference.to_string();
        assert!(text.contains(&format!("seed 5, index {}", difference.index)));
        assert_eq!(case(5, difference.index).bytes, difference.sheet);
    }
}
