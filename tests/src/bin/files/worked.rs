//! The worked bytes of docs/SHEETS.md: its tables of bytes are the sample sheets,
//! and its words, stores and answers are what the calls give.

use crate::samples;
use beltuqash_tests::by_hand::{PERMISSIVE, STRICT};
use beltuqash_tests::generate::write::bytes;
use beltuqash_tests::model::sheet::Sheet;
use beltuqash_tests::model::{hand_out, load, run, Answer, Call, HandOut, Outcome};

const PAGE: &str = include_str!("../../../../docs/SHEETS.md");

/// What stands under a heading, up to the next one.
fn section(heading: &str) -> &'static str {
    let (_, rest) = PAGE.split_once(heading).expect(heading);
    rest.split("\n#").next().unwrap_or(rest)
}

/// The tables of a section: rows of cells, without their heads.
fn tables(section: &str) -> Vec<Vec<Vec<&str>>> {
    let blocks = section.split("\n\n").filter(|block| block.starts_with('|'));
    blocks
        .map(|block| block.lines().skip(2).map(cells).collect())
        .collect()
}

fn cells(row: &str) -> Vec<&str> {
    row.trim_matches('|').split('|').map(str::trim).collect()
}

/// What stands between backquotes.
fn quoted(text: &str) -> impl Iterator<Item = &str> {
    text.split('`').skip(1).step_by(2)
}

/// The bytes between backquotes, written in hex.
fn hex(text: &str) -> Vec<u8> {
    let digits = quoted(text).flat_map(str::split_whitespace);
    digits
        .map(|byte| u8::from_str_radix(byte, 16).expect(text))
        .collect()
}

fn number(text: &str) -> usize {
    text.parse().expect(text)
}

/// The bytes of a table whose rows begin with where they stand and their bytes.
fn listed(table: &[Vec<&str>]) -> Vec<u8> {
    table.iter().fold(Vec::new(), |mut all, row| {
        assert_eq!(number(row[0]), all.len(), "{row:?}");
        all.extend(hex(row[1]));
        all
    })
}

fn run_of(sheet: &Sheet, store: &[u8], mode: u32, fuel: u32) -> Outcome {
    run(&Call {
        sheet: bytes(sheet),
        store: store.to_vec(),
        mode,
        fuel,
        output: vec![0; store.len()],
    })
}

fn asked(sheet: &Sheet, store: &[u8], reader: u32, request: &[u8]) -> Outcome {
    hand_out(&HandOut {
        sheet: bytes(sheet),
        store: store.to_vec(),
        reader,
        request: request.to_vec(),
        output: vec![0; 100],
    })
}

/// The word that a text has between backquotes.
fn word(text: &str) -> u64 {
    let digits = quoted(text).find_map(|text| text.strip_prefix("0x"));
    u64::from_str_radix(digits.expect(text), 16).expect(text)
}

const RUNNER: &str = "## A sheet: q := q + 1";

#[test]
fn the_runners_sheet_and_store() {
    let tables = tables(section(RUNNER));
    assert_eq!(listed(&tables[0]), bytes(&samples::runners()));
    let outcome = run_of(&samples::runners(), &listed(&tables[1]), PERMISSIVE, 9);
    let (_, told) = section(RUNNER)
        .split_once("A run in permissive mode with fuel 9")
        .expect("the run");
    let (told, _) = told.split_once("\n\n").expect("its end");
    assert_eq!(outcome.answer.word(), word(told));
    let written = quoted(told)
        .find(|text| text.starts_with("01 00"))
        .expect("the store");
    assert_eq!(outcome.written, hex(&format!("`{written}`")));
}

#[test]
fn the_runners_answers() {
    let tables = tables(section(RUNNER));
    let request = listed(&tables[2]);
    let finished = run_of(&samples::runners(), &listed(&tables[1]), PERMISSIVE, 9).written;
    for row in &tables[3] {
        let store = if row[0] == "the final store" {
            finished.clone()
        } else {
            hex(row[0])
        };
        let outcome = asked(&samples::runners(), &store, number(row[1]) as u32, &request);
        assert_eq!(outcome.answer.word(), 0, "{row:?}");
        assert_eq!(outcome.written, hex(row[2]), "{row:?}");
    }
}

/// The runner's sheet with other bytes at an offset.
fn changed(at: usize, other: &[u8]) -> Answer {
    let mut sheet = bytes(&samples::runners());
    sheet[at..at + other.len()].copy_from_slice(other);
    load(&sheet)
}

#[test]
fn the_runners_sheet_refused() {
    let tables = tables(section(RUNNER));
    let sheet = samples::runners();
    let store = listed(&tables[1]);
    let half_closed = hex(tables[4][2][0]);
    let cut = bytes(&sheet);
    let given = |row: usize| hex(tables[4][row][0]);
    let mut both = bytes(&sheet);
    (both[38], both[41]) = (given(11)[0], given(11)[1]);
    let answers = [
        run_of(&sheet, &store, PERMISSIVE, 0).answer,
        run_of(&sheet, &given(1), PERMISSIVE, 9).answer,
        run_of(&sheet, &half_closed, STRICT, 9).answer,
        asked(&sheet, &half_closed, 1, &listed(&tables[2])).answer,
        asked(&sheet, &store, 1, &given(4)).answer,
        load(&cut[..cut.len() - 1]),
        changed(41, &given(6)),
        changed(38, &given(7)),
        changed(42, &given(8)),
        changed(24, &given(9)),
        changed(41, &given(10)),
        load(&both),
    ];
    assert_eq!(answers.len(), tables[4].len());
    for (row, answer) in tables[4].iter().zip(answers) {
        assert_eq!(answer.word(), word(row[1]), "{row:?}");
        let told = row[2]
            .split(|c: char| !c.is_ascii_digit())
            .filter(|text| !text.is_empty());
        let told: Vec<usize> = told.map(number).collect();
        let all = [
            usize::from(answer.number),
            usize::from(answer.place),
            answer.units as usize,
        ];
        assert_eq!(told, all[..told.len()], "{row:?}");
    }
}

#[test]
fn the_runners_file() {
    let table = &tables(section("### The runner's file"))[0];
    let (sheet, store) = (
        bytes(&samples::runners()),
        listed(&tables(section(RUNNER))[1]),
    );
    let file = table.iter().fold(Vec::new(), |mut all: Vec<u8>, row| {
        assert_eq!(number(row[0]), all.len(), "{row:?}");
        all.extend(match row[1] {
            "the sheet" => sheet.clone(),
            "the store" => store.clone(),
            text => hex(text),
        });
        all
    });
    assert_eq!(
        beltuqash_tests::model::runner::prints(&file),
        "done 1\nq 1 whole 42\n"
    );
}

const FLAG: &str = "## The flag sheet";

#[test]
fn the_flag_sheet() {
    let tables = tables(section(FLAG));
    let mut all = listed(&tables[0]);
    let nodes = samples::flag().nodes;
    assert_eq!(tables[1].len(), nodes.len());
    for (row, node) in tables[1].iter().zip(nodes) {
        assert_eq!(number(row[0]), (all.len() - 48) / 8, "{row:?}");
        all.extend(hex(row[1]));
        let told: Vec<usize> = row[2..7].iter().map(|text| number(text)).collect();
        let [a, b, c] = node.places.map(usize::from);
        assert_eq!(
            told,
            [usize::from(node.kind), usize::from(node.operator), a, b, c],
            "{row:?}"
        );
    }
    assert_eq!(all, bytes(&samples::flag()));
}

#[test]
fn the_flag_sheets_runs() {
    let text = section(FLAG);
    let (_, start) = text
        .split_once("The start store at cost 600 is ")
        .expect("the start store");
    let (entries, rest) = start.split_once(": ").expect("its end");
    let store = hex(entries);
    let (_, last) = rest
        .split_once("At cost 400 its last entry is ")
        .expect("the last entry");
    let cheap = [
        &store[..store.len() - 5],
        &hex(last.split_once('.').expect("its end").0),
    ]
    .concat();
    for row in &tables(text)[2] {
        let store = if row[0] == "600" { &store } else { &cheap };
        for (mode, name) in [(STRICT, "strict"), (PERMISSIVE, "permissive")] {
            if row[1] == name || row[1] == "either" {
                let answer = run_of(&samples::flag(), store, mode, number(row[2]) as u32).answer;
                let place = number(row[4].split(',').next().expect("a place"));
                assert_eq!(usize::from(answer.number), number(row[3]), "{row:?}");
                assert_eq!(usize::from(answer.place), place, "{row:?}");
                assert_eq!(answer.units as usize, number(row[5]), "{row:?}");
            }
        }
    }
    let (_, last) = text
        .split_once("At cost 600 the final store is ")
        .expect("the final store");
    let (finished, rest) = last.split_once(". A reader").expect("its end");
    let (request, answer) = rest.split_once(" gets ").expect("the request");
    let outcome = run_of(&samples::flag(), &store, STRICT, 6);
    assert_eq!(outcome.written, hex(finished));
    let reply = asked(&samples::flag(), &outcome.written, 0, &hex(request));
    assert_eq!(
        reply.written,
        hex(answer.split_once(':').expect("its end").0)
    );
}
