//! A small random number generator (splitmix64). Every sheet and every call has
//! a generator of its own, made from the run's seed and its index, so that one
//! can be made again without those before it.

/// A state that each draw moves on.
pub struct Random {
    state: u64,
}

const STEP: u64 = 0x9e37_79b9_7f4a_7c15;

fn mix(mut word: u64) -> u64 {
    word = (word ^ word >> 30).wrapping_mul(0xbf58_476d_1ce4_e5b9);
    word = (word ^ word >> 27).wrapping_mul(0x94d0_49bb_1331_11eb);
    word ^ word >> 31
}

impl Random {
    /// The generator for one sheet of a run.
    pub fn of_sheet(seed: u64, index: u64) -> Random {
        Random::of(mix(seed.wrapping_add(STEP)), index)
    }

    /// The generator for one call of a run.
    pub fn of_call(seed: u64, index: u64) -> Random {
        Random::of(mix(!seed.wrapping_add(STEP)), index)
    }

    /// The generator for one hand-out of a run.
    pub fn of_hand_out(seed: u64, index: u64) -> Random {
        Random::of(mix(seed.wrapping_add(STEP) ^ 1), index)
    }

    /// The generator for one pair of calls of a run.
    pub fn of_pair(seed: u64, index: u64) -> Random {
        Random::of(mix(!seed.wrapping_add(STEP) ^ 1), index)
    }

    fn of(run: u64, index: u64) -> Random {
        Random {
            state: mix(run ^ index.wrapping_mul(STEP)),
        }
    }

    /// 64 random bits.
    pub fn word(&mut self) -> u64 {
        self.state = self.state.wrapping_add(STEP);
        mix(self.state)
    }

    /// A number from 0 up to, but not including, `end`.
    pub fn below(&mut self, end: usize) -> usize {
        assert!(end > 0, "nothing to draw from");
        ((u128::from(self.word()) * end as u128) >> 64) as usize
    }

    /// A number from `least` to `most`, both included.
    pub fn between(&mut self, least: usize, most: usize) -> usize {
        least + self.below(most - least + 1)
    }

    /// A number from 1 to `most`, each power of two as likely as the next.
    pub fn spread(&mut self, most: usize) -> usize {
        let bits = usize::BITS - most.leading_zeros();
        let bound = 1_usize << self.between(1, bits as usize);
        self.between(1, most.min(bound))
    }

    /// True once in `times`.
    pub fn once_in(&mut self, times: usize) -> bool {
        self.below(times) == 0
    }

    /// One of the choices.
    pub fn pick<T: Clone>(&mut self, choices: &[T]) -> T {
        choices[self.below(choices.len())].clone()
    }

    /// One of the choices, if there are any.
    pub fn pick_any<T: Clone>(&mut self, choices: &[T]) -> Option<T> {
        (!choices.is_empty()).then(|| self.pick(choices))
    }

    /// 0 to `count - 1` in random order.
    pub fn permutation(&mut self, count: usize) -> Vec<usize> {
        let mut order: Vec<usize> = (0..count).collect();
        for end in (1..count).rev() {
            order.swap(end, self.below(end + 1));
        }
        order
    }

    pub fn byte(&mut self) -> u8 {
        self.word() as u8
    }

    /// Any signed number of 4 bytes.
    pub fn value(&mut self) -> i32 {
        self.word() as i32
    }

    pub fn two_bytes(&mut self) -> u16 {
        self.word() as u16
    }

    /// This many random bytes.
    pub fn bytes(&mut self, count: usize) -> Vec<u8> {
        (0..count).map(|_| self.byte()).collect()
    }
}

#[cfg(test)]
mod tests {
    use super::Random;

    #[test]
    fn draws_stay_in_range_and_reach_both_ends() {
        let mut random = Random::of_sheet(1, 2);
        let drawn: Vec<usize> = (0..1000).map(|_| random.between(3, 9)).collect();
        assert_eq!(drawn.iter().min(), Some(&3));
        assert_eq!(drawn.iter().max(), Some(&9));
        let drawn: Vec<usize> = (0..5000).map(|_| random.spread(20)).collect();
        assert_eq!(drawn.iter().min(), Some(&1));
        assert_eq!(drawn.iter().max(), Some(&20));
    }

    #[test]
    fn a_sheet_depends_on_seed_and_index_alone() {
        let first = |seed, index| Random::of_sheet(seed, index).word();
        assert_eq!(first(7, 8), first(7, 8));
        assert_ne!(first(7, 8), first(7, 9));
        assert_ne!(first(7, 8), first(8, 8));
    }

    #[test]
    fn each_kind_of_input_has_draws_of_its_own() {
        let first = [
            Random::of_sheet(7, 8),
            Random::of_call(7, 8),
            Random::of_hand_out(7, 8),
            Random::of_pair(7, 8),
        ]
        .map(|mut random| random.word());
        for at in 1..first.len() {
            assert!(!first[..at].contains(&first[at]));
        }
    }
}
