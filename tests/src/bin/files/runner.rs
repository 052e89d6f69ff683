//! The runner program's cases: a file, and the text that it must print, written
//! by hand from documents 01 and 02. Places are node numbers of the sheets below.

use crate::parts::{name, node, operator, plain, with_nodes, SKIP};
use crate::samples::{flag, name_twice, runners, sealed_flag};
use crate::trials::{chain, last_unused, nested, with_rows};
use beltuqash_tests::by_hand::{partial, store, whole, DIVIDE, LESS, PLUS, REMAINDER};
use beltuqash_tests::generate::write::bytes;
use beltuqash_tests::model::levels::Levels;
use beltuqash_tests::model::marks::MOST_MARK;
use beltuqash_tests::model::sheet::{Sheet, COUNT_BYTES};

pub struct Case {
    pub name: String,
    pub file: Vec<u8>,
    pub text: String,
}

/// The table.
pub fn cases() -> Vec<Case> {
    let groups = [
        document(),
        shapes(),
        values(),
        cut_files(),
        sheets(),
        stores(),
        marks(),
        modes_and_fuels(),
        stops(),
        order(),
    ];
    groups.into_iter().flatten().collect()
}

const STRICT: u8 = 0;
const PERMISSIVE: u8 = 1;

const LEAST: i32 = -2_147_483_648;
const GREATEST: i32 = 2_147_483_647;

/// The runner's example and the trials of run that run and are compared.
fn document() -> Vec<Case> {
    let flag_at = |cost| store(&[(0, 7), (0, 7), (1, cost)]);
    let at_cost = |name, mode, fuel, sheet: &Sheet, cost, text| {
        case(name, file(mode, fuel, &bytes(sheet), &flag_at(cost)), text)
    };
    let done_at_600 = "done 6\nflag 0 whole 0\nq 0 whole 1\ncost 1 whole 600\n";
    let (plain, sealed) = (flag(), sealed_flag());
    let example = file(PERMISSIVE, 9, &bytes(&runners()), &store(&[(1, 41)]));
    vec![
        case("document", example, "done 1\nq 1 whole 42\n"),
        at_cost("flag-600-strict", STRICT, 9, &plain, 600, done_at_600),
        at_cost(
            "flag-600-permissive",
            PERMISSIVE,
            9,
            &plain,
            600,
            done_at_600,
        ),
        at_cost("flag-600-fuel-6", STRICT, 6, &plain, 600, done_at_600),
        at_cost(
            "flag-600-fuel-5-strict",
            STRICT,
            5,
            &plain,
            600,
            "refused 12 15 5\n",
        ),
        at_cost(
            "flag-600-fuel-5-permissive",
            PERMISSIVE,
            5,
            &plain,
            600,
            "refused 12 15 5\n",
        ),
        at_cost(
            "flag-400-permissive",
            PERMISSIVE,
            9,
            &plain,
            400,
            "refused 16 17 5\n",
        ),
        at_cost(
            "flag-400-strict",
            STRICT,
            9,
            &plain,
            400,
            "refused 15 8 4\n",
        ),
        at_cost(
            "sealed-400-permissive",
            PERMISSIVE,
            9,
            &sealed,
            400,
            "done 6\nflag 0 partial 1\nq 0 whole 0\ncost 1 whole 400\n",
        ),
        at_cost(
            "sealed-600-permissive",
            PERMISSIVE,
            9,
            &sealed,
            600,
            "done 6\nflag 0 whole 0\nq 0 partial 1\ncost 1 whole 600\n",
        ),
        at_cost(
            "sealed-600-strict",
            STRICT,
            9,
            &sealed,
            600,
            "refused 15 16 6\n",
        ),
        at_cost(
            "fuel-a-million",
            STRICT,
            1_000_000,
            &plain,
            600,
            done_at_600,
        ),
        at_cost("fuel-0", STRICT, 0, &plain, 600, "refused 12 1 0\n"),
    ]
}

/// What a line can look like. All but the first run a single skip.
fn shapes() -> Vec<Case> {
    let idle = |name, sheet: &Sheet, fields: &[(u8, i32)], text: &str| {
        case(
            name,
            file(PERMISSIVE, 1, &bytes(sheet), &store(fields)),
            text,
        )
    };
    let several = Sheet {
        fields: ["abcdefgh", "z", "a_1"].map(name).to_vec(),
        ..plain()
    };
    let sixteen_levels = |names: &[&str]| Sheet {
        fields: names.iter().map(|text| name(text)).collect(),
        ..with_rows(&chain(16))
    };
    let names: Vec<String> = (0..64).map(|i| format!("field_{i:02}")).collect();
    let names: Vec<&str> = names.iter().map(String::as_str).collect();
    let longest: String = names
        .iter()
        .map(|name| format!("{name} 15 partial -2147483648\n"))
        .collect();
    vec![
        case(
            "seven-units",
            file(STRICT, 99, &bytes(&counting()), &store(&[(0, 0)])),
            "done 7\nq 0 whole 3\n",
        ),
        idle(
            "nothing-changed",
            &plain(),
            &[(0, 5)],
            "done 1\nq 0 whole 5\n",
        ),
        idle(
            "several-fields",
            &several,
            &[whole(0, 1), whole(1, -2), partial(1, 30)],
            "done 1\nabcdefgh 0 whole 1\nz 1 whole -2\na_1 1 partial 30\n",
        ),
        idle(
            "least-and-greatest",
            &several,
            &[(0, LEAST), (0, GREATEST), (0, -1)],
            "done 1\nabcdefgh 0 whole -2147483648\nz 0 whole 2147483647\na_1 0 whole -1\n",
        ),
        idle(
            "levels-of-two-digits",
            &sixteen_levels(&["a", "b", "c", "d"]),
            &[
                whole(9, 0),
                whole(10, 10),
                whole(15, 100),
                partial(15, -100),
            ],
            "done 1\na 9 whole 0\nb 10 whole 10\nc 15 whole 100\nd 15 partial -100\n",
        ),
        idle(
            "longest-text",
            &sixteen_levels(&names),
            &[partial(15, LEAST); 64],
            &format!("done 1\n{longest}"),
        ),
    ]
}

/// q := q / c and q := q % c, among others: results, 13 and 14.
fn values() -> Vec<Case> {
    let worked_out = |name, op, c, q, text| {
        let sheet = bytes(&by_constant(op, c));
        case(name, file(STRICT, 9, &sheet, &store(&[(0, q)])), text)
    };
    vec![
        worked_out("quotient", DIVIDE, 2, -7, "done 1\nq 0 whole -4\n"),
        worked_out("remainder", REMAINDER, 2, -7, "done 1\nq 0 whole 1\n"),
        worked_out(
            "remainder-by-less-than-0",
            REMAINDER,
            -2,
            7,
            "done 1\nq 0 whole -1\n",
        ),
        worked_out(
            "remainder-of-the-least",
            REMAINDER,
            -1,
            LEAST,
            "done 1\nq 0 whole 0\n",
        ),
        worked_out("sum-13", PLUS, 1, GREATEST, "refused 13 2 1\n"),
        worked_out("quotient-13", DIVIDE, -1, LEAST, "refused 13 2 1\n"),
        worked_out("quotient-14", DIVIDE, 0, 5, "refused 14 2 1\n"),
        worked_out("remainder-14", REMAINDER, 0, 5, "refused 14 2 1\n"),
    ]
}

/// A file cut before the store's length is complete, ahead of every other check.
fn cut_files() -> Vec<Case> {
    let whole = example(PERMISSIVE, 9);
    let cut = |name, mode, length| {
        let mut file = whole[..length].to_vec();
        if let Some(first) = file.first_mut() {
            *first = mode;
        }
        case(name, file, "refused 1 0 0\n")
    };
    vec![
        cut("cut-empty", PERMISSIVE, 0),
        cut("cut-in-the-fuel", PERMISSIVE, 3),
        cut("cut-in-the-sheets-length", PERMISSIVE, 6),
        cut("cut-before-the-sheet", PERMISSIVE, 7),
        cut("cut-in-the-sheet", PERMISSIVE, 62),
        cut("cut-before-the-stores-length", PERMISSIVE, 63),
        cut("cut-in-the-stores-length", PERMISSIVE, 64),
        cut("cut-ahead-of-10", 2, 64),
        case(
            "cut-a-longer-sheet",
            [&[STRICT, 9, 0, 0, 0, 255, 255][..], &[1; 65_536]].concat(),
            "refused 1 0 0\n",
        ),
    ]
}

/// Load's numbers, with a store that would fit.
fn sheets() -> Vec<Case> {
    wrong_sheets()
        .into_iter()
        .map(|(name, sheet, text)| case(name, file(STRICT, 9, &sheet, &store(&[(0, 5)])), text))
        .collect()
}

/// Sheets that load refuses, and what is printed for them.
fn wrong_sheets() -> Vec<(&'static str, Vec<u8>, &'static str)> {
    let whole = bytes(&plain());
    let no_field = Sheet {
        fields: vec![],
        ..plain()
    };
    vec![
        ("sheet-empty-1", vec![], "refused 1 0 0\n"),
        (
            "sheet-byte-less-1",
            whole[..whole.len() - 1].to_vec(),
            "refused 1 0 0\n",
        ),
        (
            "sheet-byte-more-1",
            [&whole[..], &[0]].concat(),
            "refused 1 0 0\n",
        ),
        ("sheet-no-field-2", bytes(&no_field), "refused 2 0 0\n"),
        (
            "sheet-levels-3",
            bytes(&with_rows(&[7, 2, 4])),
            "refused 3 0 0\n",
        ),
        (
            "sheet-name-twice-4",
            bytes(&name_twice()),
            "refused 4 0 0\n",
        ),
        (
            "sheet-unknown-operator-19",
            bytes(&by_constant(10, 1)),
            "refused 19 2 0\n",
        ),
        (
            "sheet-unused-place-20",
            bytes(&with_nodes(vec![node(5, [0, 0, 1])])),
            "refused 20 0 0\n",
        ),
        (
            "sheet-its-own-child-21",
            bytes(&with_nodes(vec![SKIP, SKIP, node(7, [1, 2, 0])])),
            "refused 21 2 0\n",
        ),
        (
            "sheet-wrong-sort-22",
            bytes(&with_nodes(vec![SKIP, node(6, [0, 0, 0])])),
            "refused 22 1 0\n",
        ),
        (
            "sheet-last-of-1024-nodes-20",
            bytes(&with_nodes(last_unused())),
            "refused 20 1023 0\n",
        ),
        (
            "sheet-lowest-node-22",
            bytes(&with_nodes(vec![
                SKIP,
                node(3, [0, 0, 0]),
                node(10, [0, 0, 0]),
            ])),
            "refused 22 1 0\n",
        ),
        (
            "sheet-node-of-nobody-6",
            bytes(&with_nodes(vec![SKIP, SKIP])),
            "refused 6 0 0\n",
        ),
        (
            "sheet-depth-65-7",
            bytes(&with_nodes(nested(65))),
            "refused 7 0 0\n",
        ),
    ]
}

/// Number 8: a store cut or followed by bytes, even where what is there would
/// fit; a length or a count that doesn't fit the sheet.
fn stores() -> Vec<Case> {
    let sheet = bytes(&plain());
    let with = |name, length, there: &[u8], text| {
        case(name, file_saying(STRICT, 9, &sheet, length, there), text)
    };
    let right = store(&[(0, 5)]);
    let longer = [&right[..], &[0]].concat();
    let two = store(&[(0, 5), (0, 6)]);
    let count_2 = [&[2, 0], &right[COUNT_BYTES..]].concat();
    let count_257 = [&[1, 1], &right[COUNT_BYTES..]].concat();
    let whole = right.len();
    let cut = &right[..whole - 1];
    vec![
        with("store-right", whole, &right, "done 1\nq 0 whole 5\n"),
        with("store-none-8", 0, &[], "refused 8 0 0\n"),
        with("store-cut-8", whole, cut, "refused 8 0 0\n"),
        with("store-missing-8", whole, &[], "refused 8 0 0\n"),
        with(
            "store-cut-though-it-would-fit-8",
            whole + 1,
            &right,
            "refused 8 0 0\n",
        ),
        with("store-followed-8", whole, &longer, "refused 8 0 0\n"),
        with(
            "store-followed-though-it-would-fit-8",
            whole - 1,
            &right,
            "refused 8 0 0\n",
        ),
        with("store-length-0-followed-8", 0, &right, "refused 8 0 0\n"),
        with(
            "store-length-by-256-8",
            whole + 256,
            &right,
            "refused 8 0 0\n",
        ),
        with("store-of-two-fields-8", two.len(), &two, "refused 8 0 0\n"),
        with(
            "store-byte-more-8",
            longer.len(),
            &longer,
            "refused 8 0 0\n",
        ),
        with("store-byte-less-8", cut.len(), cut, "refused 8 0 0\n"),
        with("store-count-2-8", whole, &count_2, "refused 8 0 0\n"),
        with("store-count-257-8", whole, &count_257, "refused 8 0 0\n"),
    ]
}

/// Number 9, and marks that a run takes.
fn marks() -> Vec<Case> {
    let marked = |name, mode, field, text| {
        let sheet = bytes(&plain());
        case(name, file(mode, 9, &sheet, &store(&[field])), text)
    };
    let refused = "refused 9 0 0\n";
    let done = "done 1\nq 1 partial 5\n";
    vec![
        marked("mark-32-9", PERMISSIVE, (MOST_MARK + 1, 5), refused),
        marked("mark-level-2-9", PERMISSIVE, whole(2, 5), refused),
        marked("mark-partial-level-2-9", PERMISSIVE, partial(2, 5), refused),
        marked("mark-partial-strict-9", STRICT, partial(0, 5), refused),
        marked("mark-partial-permissive", PERMISSIVE, partial(1, 5), done),
    ]
}

/// Number 10, and the fuel that is taken.
fn modes_and_fuels() -> Vec<Case> {
    let asking = |name, mode, fuel, text| case(name, example(mode, fuel), text);
    let endless = bytes(&endless());
    vec![
        asking("mode-0", STRICT, 9, "done 1\nq 1 whole 42\n"),
        asking("mode-2-10", 2, 9, "refused 10 0 0\n"),
        asking("mode-255-10", 255, 9, "refused 10 0 0\n"),
        asking("fuel-1000001-10", STRICT, 1_000_001, "refused 10 0 0\n"),
        asking("fuel-greatest-10", STRICT, u32::MAX, "refused 10 0 0\n"),
        asking("fuel-high-byte-10", STRICT, 1 << 24, "refused 10 0 0\n"),
        asking("fuel-1", STRICT, 1, "done 1\nq 1 whole 42\n"),
        asking("fuel-0-12", STRICT, 0, "refused 12 3 0\n"),
        case(
            "fuel-a-million-12",
            file(STRICT, 1_000_000, &endless, &store(&[(0, 5)])),
            "refused 12 2 1000000\n",
        ),
        case(
            "fuel-65537-12",
            file(STRICT, 65_537, &endless, &store(&[(0, 5)])),
            "refused 12 1 65537\n",
        ),
    ]
}

/// Numbers 15 and 16 at other nodes than the flag sheet's, and 14 after units.
fn stops() -> Vec<Case> {
    let in_context = |name, mode, sheet: &Sheet, fields: &[(u8, i32)], text| {
        case(name, file(mode, 9, &bytes(sheet), &store(fields)), text)
    };
    vec![
        in_context(
            "if-15",
            STRICT,
            &closed_if(),
            &[(1, 1), (0, 3)],
            "refused 15 2 2\n",
        ),
        in_context(
            "if-permissive",
            PERMISSIVE,
            &closed_if(),
            &[(1, 1), (0, 3)],
            "done 2\np 1 whole 1\nr 0 partial 1\n",
        ),
        in_context(
            "if-partial-16",
            PERMISSIVE,
            &closed_if(),
            &[partial(0, 1), whole(0, 3)],
            "refused 16 4 1\n",
        ),
        in_context(
            "while-partial-16",
            PERMISSIVE,
            &counting(),
            &[partial(0, 1)],
            "refused 16 7 1\n",
        ),
    ]
}

/// Document 01's order of checks: a cut or followed store is told in 8's place.
fn order() -> Vec<Case> {
    let right = store(&[(0, 5)]);
    let wrong_mark = store(&[(MOST_MARK + 1, 5)]);
    let whole = right.len();
    let cut = &right[..whole - 1];
    let sheet = bytes(&plain());
    let mut cases = vec![
        case(
            "order-10-before-1",
            file(2, 9, &[], &right),
            "refused 10 0 0\n",
        ),
        case(
            "order-10-before-a-cut-store",
            file_saying(2, 9, &sheet, whole, cut),
            "refused 10 0 0\n",
        ),
        case(
            "order-10-before-a-followed-store",
            file_saying(STRICT, 1_000_001, &sheet, whole - 1, &right),
            "refused 10 0 0\n",
        ),
        case(
            "order-8-before-9",
            file_saying(STRICT, 9, &sheet, whole + 1, &wrong_mark),
            "refused 8 0 0\n",
        ),
        case(
            "order-8-before-12",
            file_saying(STRICT, 0, &sheet, whole, cut),
            "refused 8 0 0\n",
        ),
        case(
            "order-9-before-12",
            file(STRICT, 0, &sheet, &wrong_mark),
            "refused 9 0 0\n",
        ),
    ];
    for (name, sheet, text) in wrong_sheets() {
        let name = format!("order-{name}-before-a-cut-store");
        let file = file_saying(STRICT, 9, &sheet, whole, cut);
        cases.push(case(&name, file, text));
    }
    cases
}

/// q := q op c. Nodes: 0 q, 1 c, 2 the operator, 3 the assignment.
fn by_constant(op: u8, c: i32) -> Sheet {
    let nodes = vec![
        node(1, [0, 0, 0]),
        node(0, [0, 0, 0]),
        operator(2, op, [0, 1, 0]),
        node(6, [0, 2, 0]),
    ];
    Sheet {
        constants: vec![c],
        ..with_nodes(nodes)
    }
}

/// while q < 3 do q := q + 1. Nodes: 0 to 2 the test, 3 to 5 the sum, 6 the
/// assignment, 7 the while.
fn counting() -> Sheet {
    let nodes = vec![
        node(1, [0, 0, 0]),
        node(0, [0, 0, 0]),
        operator(2, LESS, [0, 1, 0]),
        node(1, [0, 0, 0]),
        node(0, [1, 0, 0]),
        operator(2, PLUS, [3, 4, 0]),
        node(6, [0, 5, 0]),
        node(9, [2, 6, 0]),
    ];
    Sheet {
        constants: vec![3, 1],
        ..with_nodes(nodes)
    }
}

/// while 1 do skip. Nodes: 0 the constant, 1 the skip, 2 the while.
fn endless() -> Sheet {
    Sheet {
        constants: vec![1],
        ..with_nodes(vec![node(0, [0, 0, 0]), SKIP, node(9, [0, 1, 0])])
    }
}

/// if p then r := 1 else skip. Nodes: 0 p, 1 the constant, 2 the assignment,
/// 3 the skip, 4 the if.
fn closed_if() -> Sheet {
    let nodes = vec![
        node(1, [0, 0, 0]),
        node(0, [0, 0, 0]),
        node(6, [1, 1, 0]),
        SKIP,
        node(8, [0, 2, 3]),
    ];
    Sheet {
        levels: Levels { rows: vec![3, 2] },
        fields: vec![name("p"), name("r")],
        constants: vec![1],
        nodes,
    }
}

/// The example's sheet and store, asked for in this way.
fn example(mode: u8, fuel: u32) -> Vec<u8> {
    file(mode, fuel, &bytes(&runners()), &store(&[(1, 41)]))
}

fn case(name: &str, file: Vec<u8>, text: &str) -> Case {
    Case {
        name: name.into(),
        file,
        text: text.into(),
    }
}

fn file(mode: u8, fuel: u32, sheet: &[u8], store: &[u8]) -> Vec<u8> {
    file_saying(mode, fuel, sheet, store.len(), store)
}

/// A file that gives this length for its store, whatever is there.
fn file_saying(mode: u8, fuel: u32, sheet: &[u8], store_length: usize, there: &[u8]) -> Vec<u8> {
    let mut file = vec![mode];
    file.extend(fuel.to_le_bytes());
    file.extend(length(sheet.len()));
    file.extend(sheet);
    file.extend(length(store_length));
    file.extend(there);
    file
}

fn length(bytes: usize) -> [u8; 2] {
    let bytes = u16::try_from(bytes).expect("a length of two bytes");
    bytes.to_le_bytes()
}

#[cfg(test)]
mod tests {
    use super::*;
    use beltuqash_tests::model::runner::prints;
    use std::collections::BTreeSet;

    #[test]
    fn the_model_prints_what_is_expected() {
        for Case { name, file, text } in cases() {
            assert_eq!(prints(&file), text, "{name}");
        }
    }

    /// Every number that the runner can print, and each case under its own name.
    #[test]
    fn the_table_has_every_number() {
        let cases = cases();
        let names: BTreeSet<&str> = cases.iter().map(|case| &case.name[..]).collect();
        assert_eq!(names.len(), cases.len());
        let refusals = cases.iter().filter_map(|case| {
            let number = case.text.strip_prefix("refused ")?.split(' ').next()?;
            number.parse().ok()
        });
        let numbers: BTreeSet<u8> = refusals.collect();
        let expected: BTreeSet<u8> = (1..=4)
            .chain(6..=10)
            .chain(12..=16)
            .chain(19..=22)
            .collect();
        assert_eq!(numbers, expected);
    }
}
