//! Judges of sheets that are wrong on purpose, each in one small way.

mod entries;
pub mod faults;
mod orders;
mod sections;
mod tree;

use crate::compare::load::compare;
use crate::model::number::{DONE, OF_NODES};
use crate::model::{load, Answer, Sheet};

/// The answer given to these bytes, to which the model gives the other.
type Says = Box<dyn Fn(&[u8], Answer) -> Answer>;

/// A judge with a fault.
pub struct WrongJudge {
    pub name: String,
    says: Says,
}

impl WrongJudge {
    fn new(
        name: impl Into<String>,
        says: impl Fn(&[u8], Answer) -> Answer + 'static,
    ) -> WrongJudge {
        WrongJudge {
            name: name.into(),
            says: Box::new(says),
        }
    }

    /// Says `wrong` for `right` where the bytes are so.
    fn confusing(
        name: impl Into<String>,
        (right, wrong): (u8, u8),
        so: impl Fn(&[u8]) -> bool + 'static,
    ) -> WrongJudge {
        WrongJudge::new(name, move |bytes, answer| {
            match answer.number == right && so(bytes) {
                true => Answer::plain(wrong),
                false => answer,
            }
        })
    }

    /// The same over sheets that can be read.
    fn confusing_sheets(
        name: impl Into<String>,
        numbers: (u8, u8),
        so: impl Fn(&Sheet) -> bool + 'static,
    ) -> WrongJudge {
        WrongJudge::confusing(name, numbers, move |bytes| {
            Sheet::read(bytes).is_ok_and(|sheet| so(&sheet))
        })
    }

    /// Says this for these numbers, where it says anything of the sheet.
    fn instead_of(
        numbers: &'static [u8],
        name: impl Into<String>,
        says: impl Fn(&Sheet) -> Option<Answer> + 'static,
    ) -> WrongJudge {
        WrongJudge::new(name, move |bytes, answer| {
            let sheet = match numbers.contains(&answer.number) {
                true => Sheet::read(bytes).ok(),
                false => None,
            };
            sheet.and_then(|sheet| says(&sheet)).unwrap_or(answer)
        })
    }

    /// Where a node is wrong, says what it finds in this way, or takes the sheet.
    fn finding(
        name: impl Into<String>,
        fault: impl Fn(&Sheet) -> Option<Answer> + 'static,
    ) -> WrongJudge {
        WrongJudge::instead_of(OF_NODES, name, move |sheet| {
            Some(fault(sheet).unwrap_or(Answer::plain(DONE)))
        })
    }

    /// This judge's answer.
    pub fn answer(&self, bytes: &[u8]) -> Answer {
        (self.says)(bytes, load(bytes))
    }
}

/// All wrong judges.
pub fn all() -> Vec<WrongJudge> {
    let mut judges = sections::judges();
    judges.extend(entries::judges());
    judges.extend(faults::judges());
    judges.extend(tree::judges());
    judges.extend(orders::judges());
    judges
}

/// The names of those that the comparison takes for right on so many sheets.
pub fn not_found_out(judges: &[WrongJudge], seed: u64, sheets: u64) -> Vec<&str> {
    let passes = |judge: &&WrongJudge| {
        let answer = |bytes: &[u8]| judge.answer(bytes).into();
        compare(seed, 0..sheets, &answer).is_ok()
    };
    judges
        .iter()
        .filter(passes)
        .map(|judge| judge.name.as_str())
        .collect()
}

#[cfg(test)]
mod tests {
    use super::*;

    #[test]
    fn every_wrong_judge_is_found_out() {
        let missed: Vec<String> = not_found_out(&all(), 1, 40_000)
            .into_iter()
            .map(String::from)
            .collect();
        assert_eq!(missed, Vec::<String>::new());
    }

    #[test]
    fn a_right_judge_is_not_found_out() {
        let right = [WrongJudge::new("right", |_, answer| answer)];
        assert_eq!(not_found_out(&right, 1, 2_000), ["right"]);
    }
}
