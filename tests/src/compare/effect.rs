//! What a call does to the memory that it is lent.

use crate::model::Outcome;

/// Bytes before and behind the output, which nobody may write.
pub const GUARD: usize = 64;

/// What somebody made of a call.
#[derive(Clone, Debug, PartialEq, Eq)]
pub struct Effect {
    /// The answer word.
    pub word: u64,
    /// The output with the guard before and behind it.
    pub memory: Vec<u8>,
    /// Whether all bytes that are only read are the same afterwards.
    pub inputs_kept: bool,
}

/// An output with its guards before a call.
pub fn memory_before(output: &[u8]) -> Vec<u8> {
    let guard = |at: usize| 0xa5 ^ at as u8;
    let mut memory: Vec<u8> = (0..GUARD).map(guard).collect();
    memory.extend(output);
    memory.extend((GUARD..2 * GUARD).map(guard));
    memory
}

impl Effect {
    /// What an outcome makes of the memory of its call, which lends this output.
    pub fn of(output: &[u8], outcome: &Outcome) -> Effect {
        let mut memory = memory_before(output);
        let written = GUARD..GUARD + outcome.written.len();
        memory[written].copy_from_slice(&outcome.written);
        Effect {
            word: outcome.answer.word(),
            memory,
            inputs_kept: true,
        }
    }

    pub fn output(&self) -> &[u8] {
        &self.memory[GUARD..self.memory.len() - GUARD]
    }

    pub fn guards(&self) -> [&[u8]; 2] {
        let behind = self.memory.len() - GUARD;
        [&self.memory[..GUARD], &self.memory[behind..]]
    }
}
