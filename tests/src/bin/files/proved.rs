//! The sheets that theorems are about (crates/secrecy/specs/Flag.antt) are the
//! sample sheets, byte for byte.

use crate::samples;
use beltuqash_tests::generate::write::bytes;
use beltuqash_tests::model::sheet::Sheet;

const DEFINITIONS: &str = include_str!("../../../../crates/secrecy/specs/Flag.antt");

/// The bytes that a definition stands for: lists of numbers, nodes whose slots
/// are all below 256, and names of other definitions.
fn defined(name: &str) -> Vec<u8> {
    let start = format!("\n{name} =\n");
    let at = DEFINITIONS.find(&start).expect(name) + start.len();
    let lines = DEFINITIONS[at..]
        .lines()
        .take_while(|line| !line.is_empty());
    lines.flat_map(part).collect()
}

fn part(line: &str) -> Vec<u8> {
    let text = line.split("--").next().unwrap_or(line);
    let numbers = text
        .split_whitespace()
        .map(|word| word.trim_matches(['(', ')']));
    let numbers: Vec<u8> = numbers.filter_map(|word| word.parse().ok()).collect();
    match text.split_whitespace().find(|word| *word != "++") {
        Some("node") => match numbers[..] {
            [kind, operator, a, b, c] => vec![kind, operator, a, 0, b, 0, c, 0],
            _ => panic!("a node of five numbers: {line}"),
        },
        Some(name) if numbers.is_empty() => defined(name),
        _ => numbers,
    }
}

fn same(name: &str, sheet: &Sheet) {
    assert_eq!(defined(name), bytes(sheet), "{name}");
}

#[test]
fn the_flag_sheet() {
    same("flag_sheet", &samples::flag());
}

#[test]
fn the_flag_sheet_with_a_seal() {
    same("sealed_sheet", &samples::sealed_flag());
}
