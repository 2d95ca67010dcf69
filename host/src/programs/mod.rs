//! What the programs `console` and `controller` share: options, a socket with faults, timers by ticket, the
//! transcript, the capture file, and what the operations do.

pub mod capture;
pub mod network;
pub mod operations;
pub mod options;
pub mod random;
pub mod tally;
pub mod timer;
pub mod transcript;

use std::io::{self, Write};
use std::process::ExitCode;

/// Why a program ends before its work is done.
#[derive(Debug, PartialEq, Eq)]
pub enum Failure {
    /// The arguments are bad: exit status 2.
    Usage(String),
    /// Something failed: exit status 1.
    Failed(String),
}

impl Failure {
    /// A failure of the system, with what was tried.
    pub fn system(tried: &str, error: &io::Error) -> Failure {
        Failure::Failed(format!("{tried}: {error}"))
    }
}

/// Prints one line. Where standard output takes no more, as when its reader has gone, the program says so and ends.
pub fn say(line: &str) {
    let mut out = io::stdout().lock();
    if let Err(error) = writeln!(out, "{line}").and_then(|()| out.flush()) {
        complain(&format!("cannot write to standard output: {error}"));
        std::process::exit(1);
    }
}

/// Prints one line on standard error. Nothing is left to do if that is closed too.
pub fn complain(line: &str) {
    let _ = writeln!(io::stderr(), "{line}");
}

/// Ends a program: whether all went well, or one clear line on standard error.
pub fn conclude(program: &str, usage: &str, result: Result<bool, Failure>) -> ExitCode {
    let (line, status) = match result {
        Ok(true) => return ExitCode::SUCCESS,
        Ok(false) => return ExitCode::from(1),
        Err(Failure::Usage(text)) => (format!("{program}: {text}; usage: {usage}"), 2),
        Err(Failure::Failed(text)) => (format!("{program}: {text}"), 1),
    };
    complain(&line);
    ExitCode::from(status)
}
