//! Compares the model with the archive, load, run and hand-out on many generated
//! inputs each, and searches the archive for breaches. Exit 0: no difference, no
//! breach, and everything often enough; 1: otherwise; 2: bad arguments.

mod archive;
mod arguments;
mod self_check;

use archive::Archive;
use arguments::{Arguments, Many, Only, USAGE};
use beltuqash_tests::compare::calls::compare;
use beltuqash_tests::compare::{counted, hand_out, load, run, Times};
use beltuqash_tests::search::{search, Counts, Shop};
use beltuqash_tests::shares::{self, Counted, Share};
use std::env;
use std::fmt::Display;
use std::ops::Range;
use std::process::ExitCode;
use std::thread;
use std::time::Instant;

fn main() -> ExitCode {
    let Some(arguments) = arguments::read(env::args().skip(1)) else {
        eprintln!("{USAGE}");
        return ExitCode::from(2);
    };
    println!("seed {}", arguments.seed);
    ExitCode::from(u8::from(!passes(&arguments)))
}

fn passes(arguments: &Arguments) -> bool {
    let Arguments {
        seed,
        many,
        only,
        self_check,
    } = *arguments;
    match only {
        _ if self_check => self_check::passes(seed, many),
        Some(Only::Sheet(index)) => compare_load(seed, one(index)).is_some(),
        Some(Only::Call(index)) => compare_run(seed, one(index)).is_some(),
        Some(Only::HandOut(index)) => compare_hand_out(seed, one(index)).is_some(),
        Some(Only::Pair(index)) => search_archive(seed, one(index)).is_some(),
        None => all_pass(seed, many),
    }
}

fn one(index: u64) -> Range<u64> {
    index..index.saturating_add(1)
}

/// Goes through all of it, whatever fails. The search takes as long as the rest, and
/// goes on beside it.
fn all_pass(seed: u64, many: Many) -> bool {
    let Many {
        sheets,
        calls,
        hand_outs,
        pairs,
    } = many;
    thread::scope(|scope| {
        let search = scope.spawn(|| pairs == 0 || search_passes(seed, pairs));
        let load = sheets == 0 || load_passes(seed, sheets);
        let run = calls == 0 || run_passes(seed, calls);
        let hand_out = hand_outs == 0 || hand_out_passes(seed, hand_outs);
        let search = search.join().expect("the search does not panic");
        load && run && hand_out && search
    })
}

fn load_passes(seed: u64, sheets: u64) -> bool {
    compare_load(seed, 0..sheets).is_some_and(|times| {
        let counted = counted(&load::NUMBERS, &times);
        often_enough(shares::OF_SHEETS, sheets, counted)
    })
}

fn run_passes(seed: u64, calls: u64) -> bool {
    compare_run(seed, 0..calls)
        .is_some_and(|times| often_enough(shares::OF_RUNS, calls, times.counted()))
}

fn hand_out_passes(seed: u64, calls: u64) -> bool {
    compare_hand_out(seed, 0..calls)
        .is_some_and(|times| often_enough(shares::OF_HAND_OUTS, calls, times.counted()))
}

fn search_passes(seed: u64, pairs: u64) -> bool {
    search_archive(seed, 0..pairs)
        .is_some_and(|counts| often_enough(shares::OF_PAIRS, pairs, counts.counted()))
}

/// Prints what came too seldom of so many inputs tried.
fn often_enough(share: Share, tried: u64, counted: impl IntoIterator<Item = Counted>) -> bool {
    let shortfalls = share.shortfalls(tried, counted);
    for shortfall in &shortfalls {
        println!("failed: {shortfall}");
    }
    shortfalls.is_empty()
}

/// Hands on what came up with the archive, or prints what was found. A shop that does
/// not end well has not passed.
fn with_archive<T, F: Display>(look: impl FnOnce(&Archive) -> Result<T, F>) -> Option<T> {
    let archive = Archive::open();
    let result = look(&archive).map_err(|found| print!("{found}"));
    archive.close().then_some(result.ok()).flatten()
}

/// Prints that all these inputs have passed, and how long it took.
fn all_passed(inputs: u64, without: &str, start: Instant) {
    let seconds = start.elapsed().as_secs_f64();
    println!("{inputs} {without} in {seconds:.1} s");
}

/// Compares the loads; prints the difference, or how often each number came.
fn compare_load(seed: u64, indexes: Range<u64>) -> Option<Times> {
    let start = Instant::now();
    let histogram =
        with_archive(|archive| load::compare(seed, indexes, &|sheet| archive.load(sheet)))?;
    for number in load::NUMBERS {
        println!("load, number {number:>2}: {:>8}", histogram[number]);
    }
    let sheets = histogram.iter().sum();
    all_passed(sheets, "sheets without a difference", start);
    Some(histogram)
}

/// The same for the runs.
fn compare_run(seed: u64, indexes: Range<u64>) -> Option<run::Histogram> {
    let start = Instant::now();
    let histogram = with_archive(|archive| compare(seed, indexes, &|call| archive.run(call)))?;
    for number in run::NUMBERS {
        let times = histogram.all[number];
        let strict = histogram.strict[number];
        let permissive = histogram.permissive[number];
        println!(
            "run, number {number:>2}: {times:>8}, strict {strict:>8}, permissive {permissive:>8}"
        );
    }
    for (kind, [quotient, remainder]) in histogram.divisions.each() {
        println!("run, {kind}: / {quotient:>8}, % {remainder:>8}");
    }
    let calls = histogram.all.iter().sum();
    all_passed(calls, "runs without a difference", start);
    Some(histogram)
}

/// The same for the hand-outs.
fn compare_hand_out(seed: u64, indexes: Range<u64>) -> Option<hand_out::Histogram> {
    let start = Instant::now();
    let histogram = with_archive(|archive| compare(seed, indexes, &|call| archive.hand_out(call)))?;
    for number in hand_out::NUMBERS {
        println!("hand-out, number {number:>2}: {:>8}", histogram.all[number]);
    }
    for (kind, times) in histogram.partial_asked.each() {
        println!("hand-out, {kind}: {times:>8}");
    }
    let calls = histogram.all.iter().sum();
    all_passed(calls, "hand-outs without a difference", start);
    Some(histogram)
}

/// Searches the archive; prints the breach, or how many pairs were of each kind.
fn search_archive(seed: u64, indexes: Range<u64>) -> Option<Counts> {
    let start = Instant::now();
    let counts = with_archive(|archive| {
        let shop = Shop {
            run: &|call| archive.run(call),
            hand_out: &|call| archive.hand_out(call),
        };
        search(seed, indexes, &shop)
    })?;
    for (name, times) in counts.each() {
        println!("pairs, {name}: {times:>8}");
    }
    all_passed(counts.pairs, "pairs without a breach", start);
    Some(counts)
}
