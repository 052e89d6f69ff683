//! The model of run: takes sheet, store, mode and fuel and writes a final store.
//! Here stand the call, its checks in the order of the table and what it brings
//! about; `follow` has the run itself.

use super::answer::number::{DONE, MARK_WRONG, MODE_OR_FUEL, OUT_SHORT, STORE_MISFIT};
use super::answer::Answer;
use super::follow::{Run, Stop, Watch};
use super::judged;
use super::rules::{Rules, DOCUMENT};
use super::sheet::Sheet;
use super::store::{entries, Store};

/// A call of run.
#[derive(Clone, Debug, PartialEq, Eq)]
pub struct Call {
    pub sheet: Vec<u8>,
    pub store: Vec<u8>,
    pub mode: u32,
    pub fuel: u32,
    /// What stands in the output before the call.
    pub output: Vec<u8>,
}

/// What a call brings about: the answer, and the bytes written from the start
/// of the output on. Later bytes stay.
#[derive(Clone, Debug, PartialEq, Eq)]
pub struct Outcome {
    pub answer: Answer,
    pub written: Vec<u8>,
}

impl Outcome {
    /// A refusal writes nothing.
    pub fn refused(answer: Answer) -> Outcome {
        Outcome {
            answer,
            written: Vec::new(),
        }
    }
}

/// Mode 0 and mode 1.
#[derive(Clone, Copy, Debug, PartialEq, Eq)]
pub enum Mode {
    Strict,
    Permissive,
}

/// Run by the document's rules.
pub fn run(call: &Call) -> Outcome {
    run_by(&DOCUMENT, call)
}

/// Run by these rules.
pub fn run_by(rules: &Rules, call: &Call) -> Outcome {
    run_watched(rules, call, UNWATCHED)
}

/// Run by these rules, watched.
pub fn run_watched(rules: &Rules, call: &Call, watch: Watch) -> Outcome {
    match Start::checked(rules, call) {
        Ok(start) => start.run_watched(rules, watch).outcome(),
        Err(refusal) => Outcome::refused(refusal),
    }
}

const UNWATCHED: Watch = &|_, _, _| {};

/// A call that has passed the checks.
pub struct Start {
    pub sheet: Sheet,
    pub store: Store,
    pub mode: Mode,
    pub fuel: u32,
}

impl Start {
    /// Row 10, load's rows, 8, 9 and 11, in the order of checks.
    pub fn checked(rules: &Rules, call: &Call) -> Result<Start, Answer> {
        let (mode, sheet) = checked_before_store(rules, call)?;
        if !(rules.store_fits)(&sheet, &call.store) {
            return Err(Answer::plain(STORE_MISFIT));
        }
        if !entries(&call.store).all(|(mark, _)| (rules.mark_is_right)(&sheet, mode, mark)) {
            return Err(Answer::plain(MARK_WRONG));
        }
        if !(rules.output_is_long_enough)(&sheet, call.output.len()) {
            return Err(Answer::plain(OUT_SHORT));
        }
        Ok(Start {
            store: Store::read(&sheet, &call.store),
            sheet,
            mode,
            fuel: call.fuel,
        })
    }

    /// Follows the last node, which is the whole command.
    pub fn run(self, rules: &Rules) -> End {
        self.run_watched(rules, UNWATCHED)
    }

    /// The same, watched.
    fn run_watched(self, rules: &Rules, watch: Watch) -> End {
        let last = self.sheet.nodes.len() - 1;
        let mut run = Run::start(rules, &self, watch);
        let stop = run.command(last).err();
        End {
            stop,
            units: self.fuel - run.fuel_left,
            store: run.store,
            way: run.way,
        }
    }
}

/// What comes before row 8 in the order of checks: row 10, then load's rows.
pub fn checked_before_store(rules: &Rules, call: &Call) -> Result<(Mode, Sheet), Answer> {
    if !(rules.mode_and_fuel_are_right)(call.mode, call.fuel) {
        return Err(Answer::plain(MODE_OR_FUEL));
    }
    let mode = match call.mode {
        0 => Mode::Strict,
        _ => Mode::Permissive,
    };
    Ok((mode, judged(&call.sheet)?))
}

/// Where a run has come to: why it stopped, if not at its end.
pub struct End {
    pub stop: Option<Stop>,
    pub units: u32,
    pub store: Store,
    /// Which tests were met, and how each came out, in one number.
    pub way: u64,
}

impl End {
    /// Success is number 0, place 0, and writes exactly the store.
    pub fn outcome(&self) -> Outcome {
        match self.stop {
            None => Outcome {
                answer: self.answer(DONE, 0),
                written: self.store.bytes(),
            },
            Some(Stop { number, place }) => Outcome::refused(self.answer(number, place)),
        }
    }

    fn answer(&self, number: u8, place: usize) -> Answer {
        Answer {
            units: self.units,
            ..Answer::at_node(number, place)
        }
    }
}
