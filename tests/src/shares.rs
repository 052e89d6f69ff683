//! Whether a run of `differential` has come often enough to all that it is for. How
//! often is a share of the inputs that it tried, so that a shorter run asks for less;
//! but nothing may be missing.

/// What the inputs of a part are called, and the share of them that must do each
/// thing that is counted: one of so many.
#[derive(Clone, Copy)]
pub struct Share {
    inputs: &'static str,
    one_of: u64,
}

pub const OF_SHEETS: Share = Share {
    inputs: "sheets",
    one_of: 200,
};

pub const OF_RUNS: Share = Share {
    inputs: "runs",
    one_of: 400,
};

pub const OF_HAND_OUTS: Share = Share {
    inputs: "hand-outs",
    one_of: 300,
};

pub const OF_PAIRS: Share = Share {
    inputs: "pairs",
    one_of: 400,
};

/// What inputs did, in words that go on after "only 12", and how many of them did it.
pub type Counted = (String, u64);

impl Share {
    /// A line for each count that falls short of the share of so many inputs tried.
    pub fn shortfalls(self, tried: u64, counted: impl IntoIterator<Item = Counted>) -> Vec<String> {
        let Share { inputs, one_of } = self;
        let short = counted
            .into_iter()
            .filter(|(_, times)| self.is_short(tried, *times));
        let line = |(did, times)| {
            format!("of {tried} {inputs} only {times} {did}, fewer than 1 of {one_of}")
        };
        short.map(line).collect()
    }

    /// Fewer than one of so many; of any inputs tried, none is too few.
    fn is_short(self, tried: u64, times: u64) -> bool {
        times * self.one_of < tried
    }
}

#[cfg(test)]
mod tests {
    use super::*;

    fn counted<const N: usize>(times: [(&str, u64); N]) -> [Counted; N] {
        times.map(|(did, times)| (did.into(), times))
    }

    #[test]
    fn a_short_count_is_named() {
        let counts = counted([("gave number 0", 120_000), ("gave number 16", 12)]);
        assert_eq!(
            OF_RUNS.shortfalls(300_000, counts),
            ["of 300000 runs only 12 gave number 16, fewer than 1 of 400"]
        );
        let counts = counted([
            ("gave number 1", 0),
            ("gave number 2", 9),
            ("gave number 3", 0),
        ]);
        assert_eq!(
            OF_SHEETS.shortfalls(200, counts),
            [
                "of 200 sheets only 0 gave number 1, fewer than 1 of 200",
                "of 200 sheets only 0 gave number 3, fewer than 1 of 200",
            ]
        );
    }

    /// The least count of so many inputs that is not short.
    fn least(share: Share, tried: u64) -> u64 {
        let enough = |times: &u64| {
            let counts = counted([("did it", *times)]);
            share.shortfalls(tried, counts).is_empty()
        };
        (0..=tried).find(enough).expect("all of them are enough")
    }

    #[test]
    fn the_share_is_of_what_was_tried_and_never_nothing() {
        assert_eq!(least(OF_SHEETS, 200_000), 1_000);
        assert_eq!(least(OF_RUNS, 300_000), 750);
        assert_eq!(least(OF_HAND_OUTS, 200_000), 667);
        assert_eq!(least(OF_PAIRS, 300_000), 750);
        assert_eq!(least(OF_RUNS, 4_000), 10);
        assert_eq!(least(OF_RUNS, 4_001), 11);
        assert_eq!(least(OF_RUNS, 400), 1);
        assert_eq!(least(OF_RUNS, 1), 1);
    }
}
