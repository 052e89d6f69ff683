//! The sheet as a typed value, and its reading from bytes: sections in their
//! fixed order, each after its count. Rows 1 and 2 of the table are found here,
//! since they come in byte order; all later rows judge the typed sheet.

use super::answer::number;
use super::levels::Levels;

/// A field's name as it stands in the sheet.
pub type Name = [u8; 8];

/// One entry of the nodes section.
#[derive(Clone, Copy, Debug, Default, PartialEq, Eq)]
pub struct Node {
    pub kind: u8,
    pub operator: u8,
    /// a, b and c.
    pub places: [u16; 3],
}

/// A sheet cut into its sections, its entries not yet judged.
#[derive(Clone, Debug, PartialEq, Eq)]
pub struct Sheet {
    pub levels: Levels,
    pub fields: Vec<Name>,
    pub constants: Vec<i32>,
    pub nodes: Vec<Node>,
}

/// A line of the document's section table.
#[derive(Clone, Copy, Debug)]
pub struct Section {
    pub least: usize,
    pub most: usize,
    pub entry_bytes: usize,
}

/// The bytes of a count.
pub const COUNT_BYTES: usize = 2;

/// Levels, fields, constants, nodes.
pub const SECTIONS: [Section; 4] = [
    section(1, 16, 2),
    section(1, 64, 8),
    section(0, 256, 4),
    section(1, 1024, 8),
];

const fn section(least: usize, most: usize, entry_bytes: usize) -> Section {
    Section {
        least,
        most,
        entry_bytes,
    }
}

impl Sheet {
    /// Reads a sheet with the document's limits.
    pub fn read(bytes: &[u8]) -> Result<Sheet, u8> {
        Sheet::read_within(bytes, &SECTIONS)
    }

    /// Reads a sheet: section by section, then nothing may be left.
    pub fn read_within(bytes: &[u8], sections: &[Section; 4]) -> Result<Sheet, u8> {
        let [levels, fields, constants, nodes] = sections;
        let (levels, rest) = read_section(bytes, levels)?;
        let (fields, rest) = read_section(rest, fields)?;
        let (constants, rest) = read_section(rest, constants)?;
        let (nodes, rest) = read_section(rest, nodes)?;
        nothing_left(rest)?;
        Ok(Sheet {
            levels: Levels {
                rows: levels.chunks_exact(2).map(two_bytes).collect(),
            },
            fields: fields.chunks_exact(8).map(name).collect(),
            constants: constants.chunks_exact(4).map(signed).collect(),
            nodes: nodes.chunks_exact(8).map(node).collect(),
        })
    }
}

/// The entries of the section at the start of `rest`, and what follows them:
/// first the count, then its limits, then the entries.
fn read_section<'a>(rest: &'a [u8], section: &Section) -> Result<(&'a [u8], &'a [u8]), u8> {
    let (count, rest) = take(rest, COUNT_BYTES)?;
    let count = usize::from(two_bytes(count));
    within_limits(count, section)?;
    take(rest, count * section.entry_bytes)
}

/// Row 1: sheet ends too soon.
fn take(rest: &[u8], bytes: usize) -> Result<(&[u8], &[u8]), u8> {
    rest.split_at_checked(bytes).ok_or(number::SHEET_LENGTH)
}

/// Row 1: or has bytes left.
fn nothing_left(rest: &[u8]) -> Result<(), u8> {
    if rest.is_empty() {
        Ok(())
    } else {
        Err(number::SHEET_LENGTH)
    }
}

/// Row 2: a count outside its limits.
fn within_limits(count: usize, section: &Section) -> Result<(), u8> {
    if (section.least..=section.most).contains(&count) {
        Ok(())
    } else {
        Err(number::COUNT_OUTSIDE)
    }
}

fn two_bytes(bytes: &[u8]) -> u16 {
    u16::from_le_bytes(bytes.try_into().expect("two bytes"))
}

fn name(bytes: &[u8]) -> Name {
    bytes.try_into().expect("eight bytes")
}

fn signed(bytes: &[u8]) -> i32 {
    i32::from_le_bytes(bytes.try_into().expect("four bytes"))
}

fn node(bytes: &[u8]) -> Node {
    Node {
        kind: bytes[0],
        operator: bytes[1],
        places: [
            two_bytes(&bytes[2..4]),
            two_bytes(&bytes[4..6]),
            two_bytes(&bytes[6..8]),
        ],
    }
}
