//! Wrong judges, runners, hand-outs and shops in the archive's place. Each must
//! be found out.

use crate::arguments::Many;
use beltuqash_tests::wrong::calls::not_found_out;
use beltuqash_tests::wrong::{hand_outs, judges, runners, shops};

/// Goes through all of them; prints those not found out.
pub fn passes(seed: u64, many: Many) -> bool {
    let judges = many.sheets == 0 || {
        let judges = judges::all();
        let missed = judges::not_found_out(&judges, seed, many.sheets);
        all_found("judges", judges.len(), &missed)
    };
    let runners = many.calls == 0 || {
        let runners = runners::all();
        let missed = not_found_out(&runners, seed, many.calls);
        all_found("runners", runners.len(), &missed)
    };
    let hand_outs = many.hand_outs == 0 || {
        let hand_outs = hand_outs::all();
        let missed = not_found_out(&hand_outs, seed, many.hand_outs);
        all_found("hand-outs", hand_outs.len(), &missed)
    };
    let shops = many.pairs == 0 || {
        let shops = shops::all();
        let missed = shops::not_found_out(&shops, seed, many.pairs);
        all_found("shops", shops.len(), &missed)
    };
    judges && runners && hand_outs && shops
}

fn all_found(what: &str, all: usize, missed: &[&str]) -> bool {
    for name in missed {
        println!("not found out: {name}");
    }
    println!("{} of {all} wrong {what} found out", all - missed.len());
    missed.is_empty()
}
