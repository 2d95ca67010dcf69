//! The second implementation of the connectionless call machines of C706, written from the papers
//! alone, and its comparison with the proved library, with which it is linked.
//!
//! Build: `rustc -O --edition 2021 -L FOLDER -l static=morphelai -o OUT second/main.rs`

mod bench;
mod codec;
mod compare;
mod coverage;
mod door;
mod generate;
mod machines;
mod records;
mod self_test;
mod systems;

use compare::archive::{record_size, Archive};
use compare::play::play;
use compare::report::{report, Verdict};
use door::layout::RECORD_LENGTH;
use std::io::{self, BufWriter, Write};
use std::process::ExitCode;

const USAGE: &str = "usage: second selftest | second gate | \
    second compare EVENTS SEED | second table EVENTS SEED";

/// What the gate plays.
const GATE_SEED: u64 = 706;
const GATE_EVENTS: u64 = 400_000;

enum Failure {
    /// The words of the command line are wrong.
    Words(String),
    Stream(io::Error),
    SelfTest(&'static str),
    /// The comparison found something, which has been printed.
    Found,
    RecordSize(usize),
}

impl From<io::Error> for Failure {
    fn from(error: io::Error) -> Failure {
        Failure::Stream(error)
    }
}

fn main() -> ExitCode {
    let words: Vec<String> = std::env::args_os()
        .skip(1)
        .map(|word| word.to_string_lossy().into_owned())
        .collect();
    let words: Vec<&str> = words.iter().map(String::as_str).collect();
    match run(&words) {
        Ok(()) => ExitCode::SUCCESS,
        Err(Failure::Words(message)) => failed(2, &message),
        Err(Failure::Stream(error)) => failed(1, &format!("second: {error}")),
        Err(Failure::SelfTest(name)) => failed(1, &format!("second: self test failed: {name}")),
        Err(Failure::Found) => ExitCode::from(1),
        Err(Failure::RecordSize(size)) => {
            failed(1, &format!("second: the library's record has {size} bytes"))
        }
    }
}

fn failed(status: u8, message: &str) -> ExitCode {
    // Nothing more can be done where standard error takes no line.
    let _ = writeln!(io::stderr(), "{message}");
    ExitCode::from(status)
}

fn run(words: &[&str]) -> Result<(), Failure> {
    match words {
        ["selftest"] => {
            self_test::all::self_test().map_err(Failure::SelfTest)?;
            writeln!(io::stdout(), "ok")?;
            Ok(())
        }
        ["gate"] => {
            let verdict = compare(GATE_EVENTS, GATE_SEED, false)?;
            found(verdict.agrees && verdict.reaches_all)
        }
        [command @ ("compare" | "table"), events, seed] => {
            let events = number("EVENTS", events)?;
            let seed = number("SEED", seed)?;
            found(compare(events, seed, *command == "table")?.agrees)
        }
        _ => Err(Failure::Words(USAGE.into())),
    }
}

fn found(is_good: bool) -> Result<(), Failure> {
    match is_good {
        true => Ok(()),
        false => Err(Failure::Found),
    }
}

/// Plays so many events with the library and prints what was found.
fn compare(events: u64, seed: u64, with_table: bool) -> Result<Verdict, Failure> {
    if record_size() != RECORD_LENGTH {
        return Err(Failure::RecordSize(record_size()));
    }
    let bench = play(Box::new(Archive), seed, events);
    let mut output = BufWriter::new(io::stdout().lock());
    let verdict = report(bench, with_table, &mut output)?;
    output.flush()?;
    Ok(verdict)
}

fn number(name: &str, word: &str) -> Result<u64, Failure> {
    word.parse().map_err(|_| {
        Failure::Words(format!(
            "{USAGE}; {name} is a number from 0 to {}, not {word:?}",
            u64::MAX
        ))
    })
}
