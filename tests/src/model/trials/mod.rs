//! Trials from the document. Sheets and stores are put together here byte by
//! byte, apart from the generator.

mod calls;
mod flow;
mod hand_out;
mod load;
mod trees;
mod values;

use super::number::*;
use super::*;

/// A sheet still in parts, each of which a trial may replace.
struct Parts {
    rows: Vec<u16>,
    names: Vec<[u8; 8]>,
    constants: Vec<i32>,
    nodes: Vec<[u16; 5]>,
}

/// Levels 0 and 1, two fields, three constants, a lone skip.
fn plain() -> Parts {
    Parts {
        rows: vec![3, 2],
        names: vec![name("q"), name("r")],
        constants: vec![4, 5, 6],
        nodes: vec![SKIP],
    }
}

const CONSTANT: [u16; 5] = [0, 0, 0, 0, 0];
const FIELD: [u16; 5] = [1, 0, 0, 0, 0];
const SKIP: [u16; 5] = [5, 0, 0, 0, 0];

impl Parts {
    fn bytes(&self) -> Vec<u8> {
        let mut bytes = count(self.rows.len());
        bytes.extend(self.rows.iter().flat_map(|row| row.to_le_bytes()));
        bytes.extend(count(self.names.len()));
        bytes.extend(self.names.iter().flatten());
        bytes.extend(count(self.constants.len()));
        bytes.extend(self.constants.iter().flat_map(|value| value.to_le_bytes()));
        bytes.extend(count(self.nodes.len()));
        for [kind, operator, a, b, c] in &self.nodes {
            bytes.extend([*kind as u8, *operator as u8]);
            bytes.extend([a, b, c].iter().flat_map(|place| place.to_le_bytes()));
        }
        bytes
    }
}

fn count(entries: usize) -> Vec<u8> {
    (entries as u16).to_le_bytes().to_vec()
}

fn name(text: &str) -> [u8; 8] {
    let mut name = [0; 8];
    name[..text.len()].copy_from_slice(text.as_bytes());
    name
}

/// The sheet of the document's runner paragraph.
const EXAMPLE: [u8; 56] = [
    0x02, 0x00, 0x03, 0x00, 0x02, 0x00, 0x01, 0x00, 0x71, 0x00, 0x00, 0x00, 0x00, 0x00, 0x00, 0x00,
    0x01, 0x00, 0x01, 0x00, 0x00, 0x00, 0x04, 0x00, 0x00, 0x00, 0x00, 0x00, 0x00, 0x00, 0x00, 0x00,
    0x01, 0x00, 0x00, 0x00, 0x00, 0x00, 0x00, 0x00, 0x02, 0x00, 0x01, 0x00, 0x00, 0x00, 0x00, 0x00,
    0x06, 0x00, 0x00, 0x00, 0x02, 0x00, 0x00, 0x00,
];
