//! The store: for each field of the sheet a value with its mark. In bytes it is
//! a count, then per field one mark byte and a signed 4-byte value.

use super::marks::Mark;
use super::sheet::{Sheet, COUNT_BYTES};

/// A value with its mark.
#[derive(Clone, Copy, Debug, PartialEq, Eq)]
pub struct Marked {
    pub value: i64,
    pub mark: Mark,
}

/// The fields' values and marks, in the sheet's order.
#[derive(Clone, Debug, PartialEq, Eq)]
pub struct Store {
    pub fields: Vec<Marked>,
}

/// The bytes of a field in a store: its mark and value.
pub const STORE_ENTRY_BYTES: usize = 5;

/// The length of a store of so many fields.
pub fn length_of(fields: usize) -> usize {
    COUNT_BYTES + STORE_ENTRY_BYTES * fields
}

/// The length of a store for this sheet.
pub fn length(sheet: &Sheet) -> usize {
    length_of(sheet.fields.len())
}

/// Where a field's mark stands: behind the fields before it.
pub fn mark_at(field: usize) -> usize {
    length_of(field)
}

/// The marks of a store of any length.
pub fn marks_mut(store: &mut [u8]) -> impl Iterator<Item = &mut u8> {
    let marks = store.iter_mut().skip(COUNT_BYTES);
    marks.step_by(STORE_ENTRY_BYTES)
}

/// The count that a store or a request begins with, if it is long enough.
pub fn count(bytes: &[u8]) -> Option<usize> {
    let count = bytes.first_chunk::<COUNT_BYTES>()?;
    Some(usize::from(u16::from_le_bytes(*count)))
}

/// The fields of a store that stand whole behind the count: mark byte and value.
pub fn entries(bytes: &[u8]) -> impl Iterator<Item = (u8, i32)> + '_ {
    entries_of(STORE_ENTRY_BYTES, bytes)
}

/// The entries of this size that stand whole behind the count: a byte and a value.
pub fn entries_of(size: usize, bytes: &[u8]) -> impl Iterator<Item = (u8, i32)> + '_ {
    let entries = bytes.get(COUNT_BYTES..).unwrap_or(&[]);
    entries.chunks_exact(size).map(|entry| {
        let value = entry[1..].first_chunk().expect("four bytes");
        (entry[0], i32::from_le_bytes(*value))
    })
}

/// A count, then for each entry a byte and a value.
pub fn counted(entries: impl ExactSizeIterator<Item = (u8, i32)>) -> Vec<u8> {
    let mut bytes = (entries.len() as u16).to_le_bytes().to_vec();
    for (byte, value) in entries {
        bytes.push(byte);
        bytes.extend(value.to_le_bytes());
    }
    bytes
}

impl Store {
    /// The store of a sheet's fields in bytes that rows 8 and 9 have passed.
    pub fn read(sheet: &Sheet, bytes: &[u8]) -> Store {
        let field = |(mark, value)| Marked {
            value: i64::from(value),
            mark: Mark::read(mark).expect("row 9 lets no mark above 31 through"),
        };
        let fields = entries(bytes).take(sheet.fields.len());
        Store {
            fields: fields.map(field).collect(),
        }
    }

    pub fn bytes(&self) -> Vec<u8> {
        counted(self.fields.iter().map(|Marked { value, mark }| {
            let value = i32::try_from(*value).expect("no value is out of range");
            (mark.byte(), value)
        }))
    }
}
