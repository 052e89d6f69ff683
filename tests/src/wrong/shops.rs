//! Shops that tell a reader what is closed to it, since their run or their
//! hand-out is wrong. The search must find a breach in each.

use super::calls::Wrong;
use super::hand_outs::{self, WrongHandOut};
use super::runners::{self, WrongRunner};
use crate::compare::calls::Compared;
use crate::model::{Call, HandOut};
use crate::search::{search, Answers, Shop};

/// The wrong runners that leak.
const RUNNERS: &[&str] = &[
    "A kept instead of the meet",
    "the context instead of the meet",
    "the join instead of the meet",
    "the meet is whole",
    "the meet is partial only if m is",
    "a partial test let through",
    "a partial test raises nothing",
    "a test raises nothing",
    "a test's level is the context",
    "the old context in later rounds of a while",
    "the context is not joined",
    "a partial value is stored whole",
    "an assignment compares the other way round",
    "an assignment compares level numbers",
    "every context lies below",
    "every context lies below a partial field",
    "not drops the mark",
    "not makes the mark whole",
    "an operator loses partial",
    "an operator has the left's level",
    "an operator has the meet",
    "seal keeps the level",
    "seal gives BOT",
];

/// The wrong hand-outs that leak.
const HAND_OUTS: &[&str] = &[
    "a partial field at or below the reader withheld",
    "a partial field at the reader's own level withheld",
    "a partial field below the reader's own level withheld",
    "a partial field withheld where the reader lies at or below it",
    "a partial field refuses where the reader lies at or below it",
    "a partial field refuses by its level's number",
    "only a partial field above the reader refuses",
    "only partial BOT refuses",
    "no partial field refuses behind a withheld one",
    "a partial field elsewhere told as open",
    "a partial field elsewhere told as an open 0",
    "the value of a partial field elsewhere behind the 0",
    "a partial field elsewhere told as such",
    "the mark of a partial field elsewhere for the 0",
    "a partial field elsewhere left out of the answer",
    "a partial field elsewhere left out, the count kept",
    "a partial field elsewhere and all behind it left out",
    "a partial field taken for a whole one",
    "a partial field told as such",
    "a partial field of value 0 doesn't refuse",
    "only partial fields elsewhere refuse",
    "only the first asked field refuses",
    "only the last asked field refuses",
    "the reader compared the other way round",
    "level numbers compared",
    "levels beside the reader open",
    "all but TOP open to all",
    "a closed field's value shown",
];

/// A shop with a wrong part.
pub enum WrongShop {
    Run(WrongRunner),
    HandOut(WrongHandOut),
}

impl WrongShop {
    pub fn name(&self) -> &str {
        match self {
            WrongShop::Run(wrong) => &wrong.name,
            WrongShop::HandOut(wrong) => &wrong.name,
        }
    }

    /// Whether the search finds a breach in so many pairs.
    fn is_found_out(&self, seed: u64, pairs: u64) -> bool {
        let (run, hand_out): (Answers<Call>, Answers<HandOut>) = match self {
            WrongShop::Run(wrong) => (&|call| wrong.effect(call), &HandOut::right),
            WrongShop::HandOut(wrong) => (&Call::right, &|call| wrong.effect(call)),
        };
        search(seed, 0..pairs, &Shop { run, hand_out }).is_err()
    }
}

/// All wrong shops.
pub fn all() -> Vec<WrongShop> {
    let runners = named(runners::all(), RUNNERS).map(WrongShop::Run);
    let hand_outs = named(hand_outs::all(), HAND_OUTS).map(WrongShop::HandOut);
    runners.chain(hand_outs).collect()
}

/// Those of these names.
fn named<C: 'static>(
    mut all: Vec<Wrong<C>>,
    names: &'static [&str],
) -> impl Iterator<Item = Wrong<C>> {
    names.iter().map(move |name| {
        let at = all.iter().position(|wrong| wrong.name == *name);
        all.swap_remove(at.expect("a fault of this name"))
    })
}

/// The names of those in which the search finds no breach in so many pairs.
pub fn not_found_out(shops: &[WrongShop], seed: u64, pairs: u64) -> Vec<&str> {
    let missed = shops.iter().filter(|shop| !shop.is_found_out(seed, pairs));
    missed.map(WrongShop::name).collect()
}

#[cfg(test)]
mod tests {
    use super::*;

    #[test]
    fn every_wrong_shop_is_found_out() {
        let shops = all();
        assert_eq!(not_found_out(&shops, 1, 20_000), Vec::<&str>::new());
    }
}
