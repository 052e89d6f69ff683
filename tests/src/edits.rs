//! The table of edits in docs/PROOFS.md has every edit that must be refused, with
//! its own words, and the place where it is refused stands where the table says.

use std::collections::BTreeMap;
use std::fs;
use std::path::{Path, PathBuf};

fn root() -> PathBuf {
    Path::new(env!("CARGO_MANIFEST_DIR")).join("..")
}

fn read(path: &Path) -> String {
    fs::read_to_string(path).unwrap_or_else(|error| panic!("{}: {error}", path.display()))
}

fn entries(directory: &Path) -> impl Iterator<Item = PathBuf> {
    let entries = fs::read_dir(directory).into_iter().flatten();
    entries.map(|entry| entry.expect("an entry").path())
}

/// The first lines of all edits, by crate and name.
fn edits() -> BTreeMap<String, String> {
    let crates = entries(&root().join("crates")).map(|crate_| crate_.join("must-fail"));
    let files = crates.flat_map(|edits| entries(&edits).collect::<Vec<_>>());
    files
        .map(|file| {
            let crate_ = file.iter().rev().nth(2).expect("a crate").to_string_lossy();
            let name = file.file_stem().expect("a name").to_string_lossy();
            let text = read(&file);
            let words = text
                .lines()
                .next()
                .expect("a line")
                .trim_start_matches("# ");
            (format!("{crate_}/{name}"), words.to_string())
        })
        .collect()
}

/// The rows of the table: edit, words, where it is refused.
fn rows() -> Vec<[String; 3]> {
    let page = read(&root().join("docs/PROOFS.md"));
    let (_, table) = page.split_once("\n## Edits\n").expect("the section");
    let rows = table
        .lines()
        .skip_while(|line| !line.starts_with('|'))
        .skip(2);
    rows.take_while(|line| line.starts_with('|'))
        .map(|line| {
            let cells: Vec<&str> = line.trim_matches('|').split(" | ").map(str::trim).collect();
            let [edit, words, place] = cells[..] else {
                panic!("three cells: {line}")
            };
            [edit.trim_matches('`'), words, place].map(str::to_string)
        })
        .collect()
}

#[test]
fn every_edit_has_its_row() {
    let rows = rows().into_iter().map(|[edit, words, _]| (edit, words));
    assert_eq!(rows.clone().count(), edits().len());
    assert_eq!(rows.collect::<BTreeMap<_, _>>(), edits());
}

#[test]
fn the_place_of_refusal_is_there() {
    for [edit, _, place] in rows() {
        let mut quoted = place.split('`').skip(1).step_by(2);
        let (name, file) = (quoted.next().expect(&edit), quoted.next().expect(&edit));
        let crate_ = edit.split('/').next().expect(&edit);
        let text = read(&root().join("crates").join(crate_).join(file));
        let named = |line: &str| line.split([' ', '(', '<']).any(|word| word == name);
        assert!(text.lines().any(named), "{edit}: {name} in {file}");
    }
}
