//! The fields' names and row 4 of the table: a to z first, then a to z, 0 to 9
//! or _, filled with zero bytes; no name twice.

use super::sheet::{Name, Sheet};

/// A law by its name.
pub type Law = (&'static str, fn(&[Name]) -> bool);

/// What row 4 asks of all names together.
pub const LAWS: [Law; 4] = [
    ("a to z first", letters_first),
    (
        "then a to z, 0 to 9 or _",
        then_letters_digits_or_underscores,
    ),
    ("filled with zero bytes", filled_with_zero_bytes),
    ("no name twice", no_name_twice),
];

/// Row 4: a bad or repeated name.
pub fn names_are_right(sheet: &Sheet) -> bool {
    LAWS.iter().all(|(_, law)| law(&sheet.fields))
}

fn letters_first(names: &[Name]) -> bool {
    names.iter().all(|name| name[0].is_ascii_lowercase())
}

fn then_letters_digits_or_underscores(names: &[Name]) -> bool {
    names
        .iter()
        .flat_map(|name| characters(name).iter().skip(1))
        .all(|&byte| byte.is_ascii_lowercase() || byte.is_ascii_digit() || byte == b'_')
}

fn filled_with_zero_bytes(names: &[Name]) -> bool {
    names
        .iter()
        .all(|name| name[characters(name).len()..].iter().all(|&byte| byte == 0))
}

fn no_name_twice(names: &[Name]) -> bool {
    (0..names.len()).all(|later| (0..later).all(|earlier| names[earlier] != names[later]))
}

/// A name without its zero bytes: what stands before the first of them.
pub fn characters(name: &Name) -> &[u8] {
    let end = name.iter().position(|&byte| byte == 0);
    &name[..end.unwrap_or(name.len())]
}
