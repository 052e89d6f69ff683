//! Runners of calls that are wrong on purpose: about one rule, about the sheet,
//! about a check, or about what they answer and write in the end.

mod answers;
mod assignments;
mod checks;
mod contexts;
mod marks;
mod order;
mod sheets;
mod values;
mod writes;

use super::calls::{
    about_nodes, about_success, about_writes, in_rules, Faults, Named, Rulebook, Wrong,
};
use crate::model::rules::{Rules, DOCUMENT};
use crate::model::run::{run_by, Start};
use crate::model::{run, Call, Outcome, Sheet};

/// A runner with a fault.
pub type WrongRunner = Wrong<Call>;

impl WrongRunner {
    /// Runs another sheet than the one that passed the checks.
    fn misreading((name, change): Named<fn(&mut Sheet)>) -> WrongRunner {
        WrongRunner::new(name, move |call| {
            let Ok(mut start) = Start::checked(&DOCUMENT, call) else {
                return run(call);
            };
            change(&mut start.sheet);
            start.run(&DOCUMENT).outcome()
        })
    }
}

impl Rulebook<Call> for Rules {
    fn outcome(&self, call: &Call) -> Outcome {
        run_by(self, call)
    }
}

/// All wrong runners.
pub fn all() -> Vec<WrongRunner> {
    let mut runners = values::runners();
    runners.extend(marks::runners());
    runners.extend(contexts::runners());
    runners.extend(assignments::runners());
    runners.extend(checks::runners());
    runners.extend(order::runners());
    runners.extend(sheets::runners());
    runners.extend(answers::runners());
    runners.extend(writes::runners());
    runners.extend(about_nodes());
    runners.extend(about_success());
    runners.extend(about_writes());
    runners
}

#[cfg(test)]
mod tests {
    use super::*;
    use crate::wrong::calls::not_found_out;

    #[test]
    fn every_wrong_runner_is_found_out() {
        let missed: Vec<String> = not_found_out(&all(), 1, 60_000)
            .into_iter()
            .map(String::from)
            .collect();
        assert_eq!(missed, Vec::<String>::new());
    }

    #[test]
    fn a_right_runner_is_not_found_out() {
        let right = [
            WrongRunner::by(("by the rules", DOCUMENT)),
            WrongRunner::making(("right", |_, right| right)),
            WrongRunner::mistaking(("nothing mistaken", |_| {})),
            WrongRunner::misreading(("nothing misread", |_| {})),
        ];
        assert_eq!(not_found_out(&right, 1, 2_000).len(), right.len());
    }

    /// A loop's raised context, dropped before the next test and raised again by
    /// that test, changes no outcome. A field of the test that the body assigns is
    /// partial, so that the test stops the run, or its level is at or above the
    /// context; if the body assigns none of them, the test's level stays.
    #[test]
    fn a_context_dropped_before_the_next_test_is_raised_by_it() {
        let dropping = Rules {
            context_of_next_round: |levels, contexts, test| {
                (DOCUMENT.context_of_body)(levels, contexts.old, test)
            },
            ..DOCUMENT
        };
        let dropping = [WrongRunner::by(("dropping", dropping))];
        assert_eq!(not_found_out(&dropping, 1, 20_000), ["dropping"]);
    }
}
