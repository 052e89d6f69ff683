//! Judges wrong about lengths and counts.

use super::WrongJudge;
use crate::model::number::{COUNT_OUTSIDE, DONE, SHEET_LENGTH};
use crate::model::sheet::{Section, Sheet, COUNT_BYTES, SECTIONS};
use crate::model::{load, Answer};

const NAMES: [&str; 4] = ["levels", "fields", "constants", "nodes"];

pub fn judges() -> Vec<WrongJudge> {
    let mut judges = lengths();
    for section in 0..SECTIONS.len() {
        judges.extend(limits(section));
        judges.push(low_byte_of_a_count(section));
    }
    judges
}

fn takes(bytes: &[u8]) -> bool {
    load(bytes).number == DONE
}

fn lengths() -> Vec<WrongJudge> {
    vec![
        WrongJudge::new("everything is taken", |_, _| Answer::plain(DONE)),
        WrongJudge::new("everything is refused", |_, _| Answer::plain(SHEET_LENGTH)),
        WrongJudge::confusing("nothing is taken", (SHEET_LENGTH, DONE), |bytes| {
            bytes.is_empty()
        }),
        WrongJudge::confusing("bytes left are taken", (SHEET_LENGTH, DONE), |bytes| {
            end_of_sections(bytes).is_some_and(|end| takes(&bytes[..end]))
        }),
        WrongJudge::confusing("one byte left is taken", (SHEET_LENGTH, DONE), |bytes| {
            !bytes.is_empty() && takes(&bytes[..bytes.len() - 1])
        }),
        WrongJudge::confusing("a byte short is taken", (SHEET_LENGTH, DONE), |bytes| {
            takes(&[bytes, &[0]].concat())
        }),
        WrongJudge::confusing("a length in two bytes", (SHEET_LENGTH, DONE), |bytes| {
            takes(&bytes[..bytes.len() % 65_536])
        }),
    ]
}

/// Where the last section ends by the counts, if the bytes reach so far.
fn end_of_sections(bytes: &[u8]) -> Option<usize> {
    let nodes = count_place(bytes, 3)?;
    let end = nodes + COUNT_BYTES + count_at(bytes, nodes)? * SECTIONS[3].entry_bytes;
    (end <= bytes.len()).then_some(end)
}

/// Where a section's count stands by the counts before it.
fn count_place(bytes: &[u8], section: usize) -> Option<usize> {
    let mut place = 0;
    for before in &SECTIONS[..section] {
        place += COUNT_BYTES + count_at(bytes, place)? * before.entry_bytes;
    }
    Some(place)
}

fn count_at(bytes: &[u8], place: usize) -> Option<usize> {
    let count = bytes.get(place..place + COUNT_BYTES)?;
    Some(usize::from(count[0]) + 256 * usize::from(count[1]))
}

/// Each limit of a section one too wide or one too narrow.
fn limits(section: usize) -> Vec<WrongJudge> {
    let name = NAMES[section];
    let Section { least, most, .. } = SECTIONS[section];
    let mut judges = vec![
        too_wide(format!("{} {name} taken", most + 1), section, 0, 1),
        too_narrow(format!("{most} {name} refused"), section, most),
        too_narrow(format!("{least} {name} refused"), section, least),
    ];
    if least > 0 {
        judges.push(too_wide(
            format!("{} {name} taken", least - 1),
            section,
            1,
            0,
        ));
    }
    judges
}

fn too_wide(name: String, section: usize, lower: usize, higher: usize) -> WrongJudge {
    let mut sections = SECTIONS;
    sections[section].least -= lower;
    sections[section].most += higher;
    WrongJudge::confusing(name, (COUNT_OUTSIDE, DONE), move |bytes| {
        Sheet::read_within(bytes, &sections).is_ok()
    })
}

fn too_narrow(name: String, section: usize, limit: usize) -> WrongJudge {
    WrongJudge::confusing_sheets(name, (DONE, COUNT_OUTSIDE), move |sheet| {
        let counts = [
            sheet.levels.count(),
            sheet.fields.len(),
            sheet.constants.len(),
            sheet.nodes.len(),
        ];
        counts[section] == limit
    })
}

/// Reads a count as if it had no high byte.
fn low_byte_of_a_count(section: usize) -> WrongJudge {
    let name = format!("only the low byte of the count of {}", NAMES[section]);
    WrongJudge::new(name, move |bytes, answer| {
        let mut low = bytes.to_vec();
        match count_place(bytes, section).and_then(|place| low.get_mut(place + 1)) {
            Some(high_byte) if *high_byte > 0 => *high_byte = 0,
            _ => return answer,
        }
        load(&low)
    })
}
