//! The model of the runner program: the file that it reads, taken apart, and
//! the text that it prints.

use super::answer::{number, Answer};
use super::marks::Mark;
use super::rules::DOCUMENT;
use super::run::{checked_before_store, run, Call, Outcome};
use super::sheet::{Name, Sheet};
use super::store::entries;

/// What the program prints for a file.
pub fn prints(file: &[u8]) -> String {
    match asked(file) {
        Some(Asked { call, store: All }) => printed(&call, &run(&call)),
        Some(Asked { call, .. }) => refused(without_store(&call)),
        None => refused(Answer::plain(number::SHEET_LENGTH)),
    }
}

/// A file whose store's length is complete.
struct Asked {
    call: Call,
    store: Behind,
}

/// What stands behind the store's length: all of the store and nothing else, or a
/// store that is cut or followed by bytes.
enum Behind {
    All,
    CutOrFollowed,
}

use Behind::*;

/// Mode byte, fuel in 4 bytes, sheet length in 2, sheet, store length in 2,
/// store; nothing where the file is cut before the store's length is complete.
fn asked(file: &[u8]) -> Option<Asked> {
    let (mode, rest) = file.split_first()?;
    let (fuel, rest) = rest.split_first_chunk::<4>()?;
    let (sheet, rest) = rest.split_first_chunk::<2>()?;
    let (sheet, rest) = rest.split_at_checked(usize::from(u16::from_le_bytes(*sheet)))?;
    let (store, rest) = rest.split_first_chunk::<2>()?;
    let call = Call {
        sheet: sheet.to_vec(),
        store: rest.to_vec(),
        mode: u32::from(*mode),
        fuel: u32::from_le_bytes(*fuel),
        // As long as a store that fits.
        output: vec![0; rest.len()],
    };
    let store = match rest.len() == usize::from(u16::from_le_bytes(*store)) {
        true => All,
        false => CutOrFollowed,
    };
    Some(Asked { call, store })
}

/// A store cut or followed by bytes is 8, in 8's place in the order: what comes before
/// it is told instead, and nothing behind it is looked at.
fn without_store(call: &Call) -> Answer {
    match checked_before_store(&DOCUMENT, call) {
        Err(refusal) => refusal,
        Ok(_) => Answer::plain(number::STORE_MISFIT),
    }
}

fn printed(call: &Call, outcome: &Outcome) -> String {
    let Outcome { answer, written } = outcome;
    if answer.number != number::DONE {
        return refused(*answer);
    }
    let sheet = Sheet::read(&call.sheet).expect("a sheet that was run");
    let fields = sheet.fields.iter().zip(entries(written));
    let lines = fields.map(|(name, (mark, value))| line(name, mark, value));
    format!("done {}\n", answer.units) + &lines.collect::<String>()
}

fn refused(answer: Answer) -> String {
    let Answer {
        number,
        place,
        units,
    } = answer;
    format!("refused {number} {place} {units}\n")
}

/// Name, level, `whole` or `partial`, value.
fn line(name: &Name, mark: u8, value: i32) -> String {
    let name = name.iter().filter(|byte| **byte != 0);
    let name: String = name.map(|byte| char::from(*byte)).collect();
    let Mark { level, partial } = Mark::read(mark).expect("a run writes marks up to 31");
    let share = if partial { "partial" } else { "whole" };
    format!("{name} {level} {share} {value}\n")
}
