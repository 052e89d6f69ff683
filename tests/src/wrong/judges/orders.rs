//! Judges that ask the right questions in the wrong order.

use super::WrongJudge;
use crate::model::levels::{Levels, LAWS};
use crate::model::nodes::first_fault;
use crate::model::number::{
    COUNT_OUTSIDE, DONE, LEVELS_WRONG, NOT_USED_ONCE, OF_NODES, SHEET_LENGTH,
};
use crate::model::sheet::{Section, Sheet, SECTIONS};
use crate::model::tree::last_is_a_command;
use crate::model::{load, Answer, CHECKS};

pub fn judges() -> Vec<WrongJudge> {
    let mut judges = checks_exchanged();
    judges.extend([
        WrongJudge::instead_of(OF_NODES, "6 before 19 to 22", |sheet| {
            (!last_is_a_command(sheet)).then(|| Answer::plain(NOT_USED_ONCE))
        }),
        WrongJudge::confusing("3 before 1", (SHEET_LENGTH, LEVELS_WRONG), levels_fail),
        WrongJudge::confusing("3 before 2", (COUNT_OUTSIDE, LEVELS_WRONG), levels_fail),
        WrongJudge::confusing(
            "limits after the lengths",
            (COUNT_OUTSIDE, SHEET_LENGTH),
            |bytes| Sheet::read_within(bytes, &without_limits()).is_err(),
        ),
        bytes_left_come_last(),
    ]);
    judges
}

/// Of two checks that both refuse, the later one is told. Rows 6 and 7 are asked
/// only of right nodes.
fn checks_exchanged() -> Vec<WrongJudge> {
    let mut judges = Vec::new();
    for (at, late) in CHECKS.iter().enumerate() {
        let of_nodes = |numbers| numbers == OF_NODES;
        let after_nodes = CHECKS[..at].iter().any(|early| of_nodes(early.numbers));
        for early in CHECKS[..at].iter().filter(|early| !of_nodes(early.numbers)) {
            let name = format!("{:?} before {:?}", late.numbers, early.numbers);
            judges.push(WrongJudge::instead_of(early.numbers, name, move |sheet| {
                let askable = !after_nodes || first_fault(sheet).is_none();
                askable.then(|| (late.refusal)(sheet)).flatten()
            }));
        }
    }
    judges
}

/// Whether the levels section can be read and breaks a law.
fn levels_fail(bytes: &[u8]) -> bool {
    let Some(&[low, high]) = bytes.get(..2) else {
        return false;
    };
    let count = usize::from(u16::from_le_bytes([low, high]));
    let within = (SECTIONS[0].least..=SECTIONS[0].most).contains(&count);
    let Some(rows) = bytes.get(2..2 + 2 * count).filter(|_| within) else {
        return false;
    };
    let row = |pair: &[u8]| u16::from_le_bytes([pair[0], pair[1]]);
    let rows = rows.chunks_exact(2).map(row).collect();
    let levels = Levels { rows };
    LAWS.iter().any(|(_, law)| !law(&levels))
}

fn without_limits() -> [Section; 4] {
    SECTIONS.map(|section| Section {
        least: 0,
        most: usize::from(u16::MAX),
        ..section
    })
}

/// A byte left is told only if the sheet is right without it.
fn bytes_left_come_last() -> WrongJudge {
    WrongJudge::new("bytes left come last", |bytes, answer| {
        if answer.number != SHEET_LENGTH || bytes.is_empty() {
            return answer;
        }
        let without = load(&bytes[..bytes.len() - 1]);
        match without.number {
            DONE | SHEET_LENGTH | COUNT_OUTSIDE => answer,
            _ => without,
        }
    })
}
