//! The search for what a reader may not see. Two runs of a sheet start from stores
//! that agree for the reader, with any two fuels. If both finish, the final stores
//! must agree for the reader; if both then answer its request, the answers must be
//! the same bytes.

mod counts;

pub use self::counts::Counts;

use crate::compare::effect::Effect;
use crate::compare::hex;
use crate::generate::pairs::{pair, Pair};
use crate::model::agree::stores_agree;
use crate::model::hand_out::request;
use crate::model::hand_out::rules::{length, DOCUMENT};
use crate::model::number::DONE;
use crate::model::run::Mode;
use crate::model::store::{entries, Store};
use crate::model::{Call, HandOut};
use std::fmt;
use std::ops::Range;

/// Whoever answers the calls: the archive, or the model under any rules.
pub struct Shop<'a> {
    pub run: Answers<'a, Call>,
    pub hand_out: Answers<'a, HandOut>,
}

/// What is made of each call of a kind.
pub type Answers<'a, C> = &'a dyn Fn(&C) -> Effect;

/// A pair of runs that the reader can tell apart.
pub struct Breach {
    pub seed: u64,
    pub index: u64,
    pub what: &'static str,
    pair: Pair,
    /// The final stores, and the answers if that is where they differ.
    ends: [Vec<u8>; 2],
    answers: Option<[Vec<u8>; 2]>,
}

/// Searches the pairs of these indexes for a breach.
pub fn search(seed: u64, indexes: Range<u64>, shop: &Shop) -> Result<Counts, Box<Breach>> {
    let mut counts = Counts::default();
    for index in indexes {
        let pair = pair(seed, index);
        counts.pair();
        if let Some(ends) = finished(shop, &pair) {
            let answers = answers(shop, &pair, &ends);
            if let Some(what) = breach(&pair, &ends, answers.as_ref()) {
                return Err(Box::new(Breach {
                    seed,
                    index,
                    what,
                    pair,
                    ends,
                    answers,
                }));
            }
            counts.finished(&pair, &ends, answers.is_some());
        }
    }
    Ok(counts)
}

fn is_done(effect: &Effect) -> bool {
    effect.word & 0xff == u64::from(DONE)
}

/// What both have written, if both are done.
fn both_done(effects: [Effect; 2]) -> Option<[Vec<u8>; 2]> {
    let done = effects.iter().all(is_done);
    done.then(|| effects.map(|effect| effect.output().to_vec()))
}

/// The final stores, if both runs finish.
fn finished(shop: &Shop, pair: &Pair) -> Option<[Vec<u8>; 2]> {
    both_done([0, 1].map(|which| {
        let store = pair.stores[which].bytes();
        (shop.run)(&Call {
            sheet: pair.bytes.clone(),
            output: vec![0; store.len()],
            store,
            mode: match pair.mode {
                Mode::Strict => 0,
                Mode::Permissive => 1,
            },
            fuel: pair.fuels[which],
        })
    }))
}

/// The answers to the reader's request, if both final stores give one.
fn answers(shop: &Shop, pair: &Pair, ends: &[Vec<u8>; 2]) -> Option<[Vec<u8>; 2]> {
    both_done([0, 1].map(|which| {
        (shop.hand_out)(&HandOut {
            sheet: pair.bytes.clone(),
            store: ends[which].clone(),
            reader: pair.reader as u32,
            request: request(&pair.fields),
            output: vec![0; length(pair.fields.len())],
        })
    }))
}

/// What the reader sees of the difference, if it sees any.
fn breach(
    pair: &Pair,
    ends: &[Vec<u8>; 2],
    answers: Option<&[Vec<u8>; 2]>,
) -> Option<&'static str> {
    let sheet = &pair.sheet;
    let known = |end: &Vec<u8>| {
        let mut marks = entries(end).map(|(mark, _)| mark);
        (DOCUMENT.store_fits)(sheet, end) && marks.all(|mark| (DOCUMENT.mark_is_right)(sheet, mark))
    };
    if !ends.iter().all(known) {
        return Some("a final store is none");
    }
    if answers.is_some_and(|[one, other]| one != other) {
        return Some("the answers differ");
    }
    let [one, other] = ends.each_ref().map(|end| Store::read(sheet, end));
    let agree = stores_agree(&sheet.levels, pair.reader, &one, &other);
    (!agree).then_some("the final stores don't agree")
}

impl fmt::Display for Breach {
    fn fmt(&self, out: &mut fmt::Formatter) -> fmt::Result {
        let Breach { pair, ends, .. } = self;
        let (seed, index) = (self.seed, self.index);
        writeln!(out, "breach at seed {seed}, pair {index}: {}", self.what)?;
        let Pair { mode, reader, .. } = pair;
        writeln!(out, "{mode:?}, reader {reader}, asked {:?}", pair.fields)?;
        hex(out, "sheet", &pair.bytes)?;
        for (which, name) in ["one", "other"].into_iter().enumerate() {
            writeln!(out, "{name}: fuel {}", pair.fuels[which])?;
            hex(out, "start store", &pair.stores[which].bytes())?;
            hex(out, "final store", &ends[which])?;
            if let Some(answers) = &self.answers {
                hex(out, "answer", &answers[which])?;
            }
        }
        Ok(())
    }
}

#[cfg(test)]
mod tests {
    use super::*;
    use crate::compare::calls::Compared;
    use crate::model::Sheet;
    use crate::shares::OF_PAIRS;

    const MODEL: Shop = Shop {
        run: &Call::right,
        hand_out: &HandOut::right,
    };

    #[test]
    fn pairs_agree_and_only_readers_below_top_start_with_partial_fields() {
        for index in 0..5_000 {
            let Pair {
                sheet,
                reader,
                stores: [one, other],
                ..
            } = pair(2, index);
            assert!(stores_agree(&sheet.levels, reader, &one, &other));
            let mut fields = one.fields.iter().chain(&other.fields);
            let partial = fields.any(|field| field.mark.partial);
            assert!(!partial || reader != sheet.levels.top());
        }
    }

    #[test]
    fn there_is_no_breach_in_the_model() {
        let counts = search(2, 0..60_000, &MODEL);
        let counts = counts.unwrap_or_else(|breach| panic!("{breach}"));
        assert_eq!(counts.pairs, 60_000);
        for (name, times) in counts.each() {
            assert!(times > 200, "{name}: {times}");
        }
    }

    #[test]
    fn what_did_not_come_is_named() {
        let short = OF_PAIRS.shortfalls(800, Counts::default().counted());
        assert_eq!(short.len(), Counts::default().each().count());
        assert_eq!(
            short[0],
            "of 800 pairs only 0 finished both, fewer than 1 of 400"
        );
    }

    #[test]
    fn a_breach_tells_how_to_replay_it() {
        let shows_all = |call: &HandOut| {
            let reader = top_of(call);
            let call = call.clone();
            HandOut { reader, ..call }.right()
        };
        let shop = Shop {
            hand_out: &shows_all,
            ..MODEL
        };
        let Err(breach) = search(5, 0..1_000, &shop) else {
            panic!("closed fields are shown");
        };
        let text = breach.to_string();
        assert!(text.contains(&format!("seed 5, pair {}", breach.index)));
        assert_eq!(pair(5, breach.index).bytes, breach.pair.bytes);
    }

    /// TOP of the call's sheet.
    fn top_of(call: &HandOut) -> u32 {
        let sheet = Sheet::read(&call.sheet).expect("a sheet");
        sheet.levels.top() as u32
    }
}
