//! The table's numbers stand in four lists: the C header's, that of the product's
//! code, that of its definitions, and the model's. All have the same names and
//! values. The header's limits and sizes are the model's.

use crate::model::hand_out::rules::{ANSWER_ENTRY_BYTES, MOST_ASKED};
use crate::model::hand_out::NUMBER_BYTES;
use crate::model::marks::PARTIAL;
use crate::model::rules::MOST_FUEL;
use crate::model::sheet::{Section, COUNT_BYTES, SECTIONS};
use crate::model::store::STORE_ENTRY_BYTES;
use crate::model::tree::MOST_DEPTH;
use std::collections::BTreeMap;
use std::fs;

/// Names as the header has them, without its prefix, and what they stand for.
type List = BTreeMap<String, usize>;

/// How a list is read off its file.
type Reading = fn(&str) -> List;

const HEADER: &str = "include/beltuqash.h";

/// A file of the repository.
fn read(file: &str) -> String {
    let path = format!("{}/../{file}", env!("CARGO_MANIFEST_DIR"));
    fs::read_to_string(&path).unwrap_or_else(|error| panic!("{path}: {error}"))
}

/// A list of these entries; no name stands twice.
fn list<Name: Into<String>>(entries: impl IntoIterator<Item = (Name, usize)>) -> List {
    let mut list = List::new();
    for (name, number) in entries {
        let name = name.into();
        assert!(!list.contains_key(&name), "{name} twice");
        list.insert(name, number);
    }
    list
}

fn number(text: &str) -> usize {
    let digits = text.trim();
    let number = digits.parse();
    number.unwrap_or_else(|_| panic!("{digits} is no number"))
}

/// The constants of an enum of the header: NAME = NUMBER, with commas between them.
/// Those that are worked out from others are left out.
fn constants_of(header: &str, start: &str) -> List {
    let (_, from) = header.split_once(start).expect(start);
    let (constants, _) = from.split_once("};").expect("the end of the enum");
    let uncommented: String = constants
        .split("/*")
        .map(|part| part.split_once("*/").map_or(part, |(_, rest)| rest))
        .collect();
    list(uncommented.split(',').filter_map(|constant| {
        let (name, value) = constant.split_once('=').expect("NAME = NUMBER");
        let name = name.trim().strip_prefix("BELTUQASH_").expect("the prefix");
        (!value.contains("BELTUQASH_")).then(|| (name, number(value)))
    }))
}

fn in_header(text: &str) -> List {
    constants_of(text, "enum beltuqash_numbers {")
}

/// The cases of the enum Number, `NodeUnknown = 19,` for NODE_UNKNOWN. Success is no case: it is a constant beside them.
fn in_enum(text: &str) -> List {
    let (_, from) = text.split_once("pub enum Number {").expect("the enum");
    let (cases, _) = from.split_once('}').expect("the end of the enum");
    let cases = cases.split(',').filter_map(|case| {
        let (name, value) = case.split_once('=')?;
        let words = name.trim().chars().enumerate().flat_map(|(at, letter)| {
            let between = (at > 0 && letter.is_ascii_uppercase()).then_some('_');
            between.into_iter().chain([letter.to_ascii_uppercase()])
        });
        Some((words.collect::<String>(), number(value)))
    });
    list(cases.chain(constants(text)))
}

fn in_model(text: &str) -> List {
    list(constants(text))
}

/// pub const NAME: u8 = NUMBER; constants of other types are no numbers of the table.
fn constants(text: &str) -> impl Iterator<Item = (String, usize)> + '_ {
    text.lines().filter_map(|line| {
        let constant = line.trim().strip_prefix("pub const ")?;
        let (name, rest) = constant.split_once(':')?;
        let (kind, value) = rest.split_once('=')?;
        let value = value.trim().trim_end_matches(';');
        (kind.trim() == "u8").then(|| (name.trim().to_string(), number(value)))
    })
}

/// abbrev pub name : ℕ, and on the next line name = NUMBER; other definitions are no numbers.
fn in_definitions(text: &str) -> List {
    let lines = text.lines().zip(text.lines().skip(1));
    list(lines.filter_map(|(line, next)| {
        let declared = line.strip_prefix("abbrev pub ")?;
        let name = declared.strip_suffix(" : ℕ")?;
        let (defined, value) = next.split_once(" = ").expect(line);
        assert_eq!(name, defined);
        Some((name.to_ascii_uppercase(), number(value)))
    }))
}

#[test]
fn the_lists_of_the_tables_numbers_are_the_same() {
    let headers = in_header(&read(HEADER));
    assert!(!headers.is_empty());
    let others: [(&str, Reading); 3] = [
        ("crates/basis/src/numbers.rt", in_enum),
        ("crates/basis/specs/Numbers.antt", in_definitions),
        ("tests/src/model/answer.rs", in_model),
    ];
    for (file, reading) in others {
        let list = reading(&read(file));
        assert_eq!(list, headers, "{file} is not as the header");
    }
}

#[test]
fn the_headers_limits_and_sizes_are_the_models() {
    let [levels, fields, constants, nodes] = SECTIONS;
    let longest = |section: Section| COUNT_BYTES + section.most * section.entry_bytes;
    let models = [
        ("MOST_LEVELS", levels.most),
        ("MOST_FIELDS", fields.most),
        ("MOST_CONSTANTS", constants.most),
        ("MOST_NODES", nodes.most),
        ("MOST_DEPTH", MOST_DEPTH),
        ("MOST_ASKED", MOST_ASKED),
        ("MOST_FUEL", MOST_FUEL as usize),
        ("COUNT_BYTES", COUNT_BYTES),
        ("LEVEL_BYTES", levels.entry_bytes),
        ("NAME_BYTES", fields.entry_bytes),
        ("CONSTANT_BYTES", constants.entry_bytes),
        ("NODE_BYTES", nodes.entry_bytes),
        ("STORE_ENTRY_BYTES", STORE_ENTRY_BYTES),
        ("REQUEST_ENTRY_BYTES", NUMBER_BYTES),
        ("ANSWER_ENTRY_BYTES", ANSWER_ENTRY_BYTES),
        ("LONGEST_SHEET", SECTIONS.map(longest).iter().sum()),
        ("PARTIAL", PARTIAL.into()),
    ];
    let headers = constants_of(&read(HEADER), "enum {");
    assert_eq!(headers, list(models));
}
