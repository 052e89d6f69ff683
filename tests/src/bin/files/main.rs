//! Writes the files that the repository stores made: the `trials` program's
//! input, as `trials`, and the sample sheets of examples/, into the directory
//! that it is given; and the runner program's cases, NAME.in and NAME.out, into
//! its folder `runner`. The gate compares them with what is stored and printed.

mod lessons;
mod parts;
#[cfg(test)]
mod proved;
mod runner;
mod samples;
mod trials;
#[cfg(test)]
mod worked;

use beltuqash_tests::generate::write::bytes;
use std::path::PathBuf;
use std::{env, fs, io};

fn main() -> io::Result<()> {
    let directory = PathBuf::from(env::args().nth(1).unwrap_or_else(|| ".".into()));
    fs::write(directory.join("trials"), trials::input())?;
    for (name, sheet) in samples::all().into_iter().chain(lessons::all()) {
        fs::write(directory.join(name), bytes(&sheet))?;
    }
    let cases = directory.join("runner");
    fs::create_dir_all(&cases)?;
    for case in runner::cases() {
        fs::write(cases.join(format!("{}.in", case.name)), case.file)?;
        fs::write(cases.join(format!("{}.out", case.name)), case.text)?;
    }
    Ok(())
}
