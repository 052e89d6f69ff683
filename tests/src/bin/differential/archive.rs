//! The C archive's calls. The shop makes them, a C program that is linked with the
//! archive; `tests/shop.c` says what goes over its pipes.

use beltuqash_tests::compare::effect::{memory_before, Effect, GUARD};
use beltuqash_tests::compare::hex;
use beltuqash_tests::compare::load::Judgement;
use beltuqash_tests::model::{Call, HandOut};
use std::cell::{Cell, RefCell};
use std::io::{self, BufReader, Read, Write};
use std::path::PathBuf;
use std::process::{Child, ChildStdin, ChildStdout, Command, ExitStatus, Stdio};
use std::{env, fmt, process};

/// The shop's numbers of the calls.
const LOAD: u32 = 0;
const RUN: u32 = 1;
const HAND_OUT: u32 = 2;

/// The archive behind its shop.
pub struct Archive {
    shop: RefCell<Child>,
    input: RefCell<ChildStdin>,
    output: RefCell<BufReader<ChildStdout>>,
    answered: Cell<u64>,
}

/// A call as the shop is told it. `memory` is the output between guards, or nothing.
#[derive(Default)]
struct Told<'a> {
    call: u32,
    mode_or_reader: u32,
    fuel: u32,
    sheet: &'a [u8],
    store: &'a [u8],
    request: &'a [u8],
    memory: Vec<u8>,
}

impl Archive {
    /// Starts the shop that BELTUQASH_SHOP names, or `target/shop` of the repository.
    pub fn open() -> Archive {
        let made = concat!(env!("CARGO_MANIFEST_DIR"), "/../target/shop");
        let path = env::var_os("BELTUQASH_SHOP").map_or(made.into(), PathBuf::from);
        let mut command = Command::new(&path);
        command.stdin(Stdio::piped()).stdout(Stdio::piped());
        let mut shop = command.spawn().unwrap_or_else(|error| {
            println!("the shop {} does not start: {error}", path.display());
            process::exit(1)
        });
        let input = shop.stdin.take().expect("a pipe");
        let output = shop.stdout.take().expect("a pipe");
        Archive {
            shop: shop.into(),
            input: input.into(),
            output: BufReader::new(output).into(),
            answered: Cell::new(0),
        }
    }

    pub fn load(&self, sheet: &[u8]) -> Judgement {
        let Effect {
            word, inputs_kept, ..
        } = self.tell(Told {
            call: LOAD,
            sheet,
            ..Told::default()
        });
        Judgement {
            word,
            sheet_kept: inputs_kept,
        }
    }

    pub fn run(&self, call: &Call) -> Effect {
        self.tell(Told {
            call: RUN,
            mode_or_reader: call.mode,
            fuel: call.fuel,
            sheet: &call.sheet,
            store: &call.store,
            memory: memory_before(&call.output),
            ..Told::default()
        })
    }

    pub fn hand_out(&self, call: &HandOut) -> Effect {
        self.tell(Told {
            call: HAND_OUT,
            mode_or_reader: call.reader,
            sheet: &call.sheet,
            store: &call.store,
            request: &call.request,
            memory: memory_before(&call.output),
            ..Told::default()
        })
    }

    /// Sends the shop home; says whether it ended well.
    pub fn close(self) -> bool {
        drop(self.input);
        let status = ended(&mut self.shop.borrow_mut());
        if !status.success() {
            println!("the shop ended with {status}");
        }
        status.success()
    }

    /// Tells the shop a call and takes its answer; without one the program ends.
    fn tell(&self, told: Told) -> Effect {
        let answered = self.answered.get();
        self.answered.set(answered + 1);
        self.answer(&told).unwrap_or_else(|_| {
            let status = ended(&mut self.shop.borrow_mut());
            print!("the shop ended with {status} after {answered} answers, in this call:\n{told}");
            process::exit(1)
        })
    }

    fn answer(&self, told: &Told) -> io::Result<Effect> {
        self.input.borrow_mut().write_all(&told.frame())?;
        let mut output = self.output.borrow_mut();
        let (mut word, mut kept) = ([0; 8], [0]);
        let mut memory = vec![0; told.memory.len()];
        output.read_exact(&mut word)?;
        output.read_exact(&mut kept)?;
        output.read_exact(&mut memory)?;
        Ok(Effect {
            word: u64::from_le_bytes(word),
            memory,
            inputs_kept: kept == [1],
        })
    }
}

fn ended(shop: &mut Child) -> ExitStatus {
    shop.wait().expect("a process that was started")
}

impl Told<'_> {
    /// The head's numbers, and the bytes lent.
    fn frame(&self) -> Vec<u8> {
        let length = |bytes: &[u8]| bytes.len() as u32;
        let guard = if self.memory.is_empty() { 0 } else { GUARD };
        let output = self.memory.len() - 2 * guard;
        let head = [
            self.call,
            self.mode_or_reader,
            self.fuel,
            length(self.sheet),
            length(self.store),
            length(self.request),
            output as u32,
            guard as u32,
        ];
        let lent = [self.sheet, self.store, self.request, &self.memory].concat();
        let mut frame: Vec<u8> = head.into_iter().flat_map(u32::to_le_bytes).collect();
        frame.extend(lent);
        frame
    }
}

impl fmt::Display for Told<'_> {
    fn fmt(&self, out: &mut fmt::Formatter) -> fmt::Result {
        let name = ["load", "run", "hand-out"][self.call as usize];
        let (mode_or_reader, fuel) = (self.mode_or_reader, self.fuel);
        writeln!(out, "{name}, mode or reader {mode_or_reader}, fuel {fuel}")?;
        hex(out, "sheet", self.sheet)?;
        hex(out, "store", self.store)?;
        hex(out, "request", self.request)
    }
}
