//! Calls for trials of run, of sheets written as trees.

use super::{Call, Outcome, Parts};
pub use crate::by_hand::*;
pub use crate::model::marks::{MOST_MARK, PARTIAL};
use crate::model::run;
pub use crate::model::store::{length_of, mark_at};

impl Parts {
    /// A sheet of these levels, fields f0, f1 and so on, and this command.
    pub fn of(rows: &[u16], fields: usize, command: Tree) -> Parts {
        let (constants, nodes) = command.sections();
        let nodes = nodes.iter().map(|node| {
            let [a, b, c] = node.places;
            [node.kind.into(), node.operator.into(), a, b, c]
        });
        Parts {
            rows: rows.to_vec(),
            names: (0..fields).map(|i| super::name(&format!("f{i}"))).collect(),
            constants,
            nodes: nodes.collect(),
        }
    }
}

/// A call with an output of the store's length.
pub fn call(sheet: &Parts, fields: &[(u8, i32)], mode: u32, fuel: u32) -> Call {
    let store = store(fields);
    Call {
        sheet: sheet.bytes(),
        output: vec![0; store.len()],
        store,
        mode,
        fuel,
    }
}

/// Whether this is the mark of one of the diamond's levels, whole or partial.
pub fn of_diamond(mark: u8) -> bool {
    (0..4).any(|level| mark == level || mark == level + PARTIAL)
}

/// The call ends after these units with these fields.
#[track_caller]
pub fn done(call: &Call, units: u32, fields: &[(u8, i32)]) {
    let Outcome { answer, written } = run(call);
    assert_eq!((answer.number, answer.place, answer.units), (0, 0, units));
    assert_eq!(written, store(fields));
}

/// The call is refused with this number, place and units, and writes nothing.
#[track_caller]
pub fn refused(call: &Call, number: u8, place: u16, units: u32) {
    let Outcome { answer, written } = run(call);
    assert_eq!(
        (answer.number, answer.place, answer.units),
        (number, place, units)
    );
    assert_eq!(written, []);
}
