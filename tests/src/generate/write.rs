//! A typed sheet put into bytes, and where its counts stand in them.

use crate::model::sheet::{Node, Sheet};

/// The sheet in bytes, each section after the count of its entries.
pub fn bytes(sheet: &Sheet) -> Vec<u8> {
    let mut bytes = Vec::new();
    count(&mut bytes, sheet.levels.rows.len());
    bytes.extend(sheet.levels.rows.iter().flat_map(|row| row.to_le_bytes()));
    count(&mut bytes, sheet.fields.len());
    bytes.extend(sheet.fields.iter().flatten());
    count(&mut bytes, sheet.constants.len());
    bytes.extend(sheet.constants.iter().flat_map(|value| value.to_le_bytes()));
    count(&mut bytes, sheet.nodes.len());
    bytes.extend(sheet.nodes.iter().flat_map(node));
    bytes
}

fn count(bytes: &mut Vec<u8>, entries: usize) {
    let entries = u16::try_from(entries).expect("a count of two bytes");
    bytes.extend(entries.to_le_bytes());
}

fn node(node: &Node) -> [u8; 8] {
    let [a, b, c] = node.places.map(u16::to_le_bytes);
    [node.kind, node.operator, a[0], a[1], b[0], b[1], c[0], c[1]]
}

/// A sheet in bytes with where its four counts stand.
pub struct Written {
    pub bytes: Vec<u8>,
    pub counts: [usize; 4],
}

impl Written {
    pub fn from(sheet: &Sheet) -> Written {
        let fields = 2 + 2 * sheet.levels.rows.len();
        let constants = fields + 2 + 8 * sheet.fields.len();
        let nodes = constants + 2 + 4 * sheet.constants.len();
        Written {
            bytes: bytes(sheet),
            counts: [0, fields, constants, nodes],
        }
    }

    /// The count of this section, if the bytes reach so far.
    pub fn count(&mut self, section: usize) -> Option<&mut [u8; 2]> {
        let from = self.bytes.get_mut(self.counts[section]..)?;
        from.first_chunk_mut()
    }
}
