//! The program's arguments.

use std::time::{SystemTime, UNIX_EPOCH};

pub const USAGE: &str =
    "usage: differential [--seed N] [--sheets N] [--calls N] [--hand-outs N] [--pairs N]
                    [--index N | --call N | --hand-out N | --pair N] [--self-check]
  --seed N       the run's seed; from the clock if not given
  --sheets N     how many sheets for load; 200000 if not given, 0 leaves load out
  --calls N      how many calls of run; 300000 if not given, 0 leaves run out
  --hand-outs N  how many calls of hand-out; 200000 if not given, 0 leaves hand-out out
  --pairs N      how many pairs for the search; 300000 if not given, 0 leaves it out
  --index N      only load, on the sheet of this index, to replay a difference
  --call N       only run, on the call of this index, to replay a difference
  --hand-out N   only hand-out, on the call of this index, to replay a difference
  --pair N       only the search, on the pair of this index, to replay a breach
  --self-check   wrong judges, runners, hand-outs and shops in the archive's place;
                 each must be found out";

/// What is asked of the program.
pub struct Arguments {
    pub seed: u64,
    pub many: Many,
    pub only: Option<Only>,
    pub self_check: bool,
}

/// How many of each kind of input.
#[derive(Clone, Copy)]
pub struct Many {
    pub sheets: u64,
    pub calls: u64,
    pub hand_outs: u64,
    pub pairs: u64,
}

/// The one input of this index.
#[derive(Clone, Copy)]
pub enum Only {
    Sheet(u64),
    Call(u64),
    HandOut(u64),
    Pair(u64),
}

const MANY: Many = Many {
    sheets: 200_000,
    calls: 300_000,
    hand_outs: 200_000,
    pairs: 300_000,
};

/// Reads the arguments; nothing if one is not known.
pub fn read(mut given: impl Iterator<Item = String>) -> Option<Arguments> {
    let mut arguments = Arguments {
        seed: seed_from_clock(),
        many: MANY,
        only: None,
        self_check: false,
    };
    let many = &mut arguments.many;
    while let Some(argument) = given.next() {
        let mut value = || given.next()?.parse().ok();
        match argument.as_str() {
            "--seed" => arguments.seed = value()?,
            "--sheets" => many.sheets = value()?,
            "--calls" => many.calls = value()?,
            "--hand-outs" => many.hand_outs = value()?,
            "--pairs" => many.pairs = value()?,
            "--index" => arguments.only = Some(Only::Sheet(value()?)),
            "--call" => arguments.only = Some(Only::Call(value()?)),
            "--hand-out" => arguments.only = Some(Only::HandOut(value()?)),
            "--pair" => arguments.only = Some(Only::Pair(value()?)),
            "--self-check" => arguments.self_check = true,
            _ => return None,
        }
    }
    Some(arguments)
}

fn seed_from_clock() -> u64 {
    let since = SystemTime::now().duration_since(UNIX_EPOCH);
    since.map_or(0, |since| since.as_nanos() as u64)
}
