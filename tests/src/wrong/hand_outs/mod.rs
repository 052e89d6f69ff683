//! Hand-outs that are wrong on purpose: about who sees what, about a check, about
//! the order of checks, or about what they answer and write in the end.

mod checks;
mod entries;
mod order;
mod refusals;
mod writes;

use super::calls::{about_nodes, about_success, about_writes, Rulebook, Wrong};
use crate::model::hand_out::hand_out_by;
use crate::model::hand_out::rules::Rules;
use crate::model::{HandOut, Outcome};

/// A hand-out with a fault.
pub type WrongHandOut = Wrong<HandOut>;

impl Rulebook<HandOut> for Rules {
    fn outcome(&self, call: &HandOut) -> Outcome {
        hand_out_by(self, call)
    }
}

/// All wrong hand-outs.
pub fn all() -> Vec<WrongHandOut> {
    let mut hand_outs = entries::hand_outs();
    hand_outs.extend(refusals::hand_outs());
    hand_outs.extend(checks::hand_outs());
    hand_outs.extend(order::hand_outs());
    hand_outs.extend(writes::hand_outs());
    hand_outs.extend(about_nodes());
    hand_outs.extend(about_success());
    hand_outs.extend(about_writes());
    hand_outs
}

#[cfg(test)]
mod tests {
    use super::*;
    use crate::model::hand_out::rules::DOCUMENT;
    use crate::wrong::calls::not_found_out;

    #[test]
    fn every_wrong_hand_out_is_found_out() {
        let hand_outs = all();
        let missed = not_found_out(&hand_outs, 1, 60_000);
        assert_eq!(missed, Vec::<&str>::new());
    }

    #[test]
    fn a_right_hand_out_is_not_found_out() {
        let right = [
            WrongHandOut::by(("by the rules", DOCUMENT)),
            WrongHandOut::making(("right", |_, right| right)),
            WrongHandOut::mistaking(("nothing mistaken", |_| {})),
        ];
        assert_eq!(not_found_out(&right, 1, 2_000).len(), right.len());
    }
}
