//! Tests of Beltuqash from the outside: a model of its calls written from
//! documents 01 and 02 alone, a generator of sheets and calls, the comparison of the
//! model with whoever else answers them, and a search for what a reader may not see.

pub mod by_hand;
pub mod compare;
#[cfg(test)]
mod edits;
pub mod generate;
pub mod model;
#[cfg(test)]
mod numbers;
pub mod random;
pub mod search;
pub mod shares;
pub mod wrong;
