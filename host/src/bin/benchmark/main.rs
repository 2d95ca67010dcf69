//! What each event and each refusal of both machines costs from Rust. A case is one call of the door, repeated on
//! copies of one record; it must be answered as it says, or the program fails.
//!
//! Without `--count` all cases are timed: the least of many short rounds, in which the cases take turns, in
//! nanoseconds a call. With it one case runs so many times, for a tool that counts instructions: see `tests/costs`.

mod both;
mod case;
mod client;
mod codec;
mod event;
mod machine;
mod server;
mod side;

use case::Case;
use event::Lent;
use morphelai::programs::{conclude, say, Failure};
use std::process::ExitCode;
use std::time::Instant;

const USAGE: &str = "benchmark [ROUNDS] | benchmark --count CASE TIMES";
/// How many rounds are timed where none are named.
const ROUNDS: u64 = 2000;
/// How many calls of a case a round has.
const BATCH: u64 = 64;

fn main() -> ExitCode {
    let words: Vec<_> = std::env::args_os().skip(1).map(|word| word.to_string_lossy().into_owned()).collect();
    let words: Vec<_> = words.iter().map(String::as_str).collect();
    conclude("benchmark", USAGE, run(&words).map(|()| true))
}

fn run(words: &[&str]) -> Result<(), Failure> {
    match words {
        [] => time(ROUNDS),
        [rounds] => time(number(rounds)?),
        ["--count", name, times] => count(name, number(times)?),
        _ => Err(Failure::Usage(String::from("these arguments are not known"))),
    }
}

fn number(word: &str) -> Result<u64, Failure> {
    let number = word.parse().ok().filter(|number| (1..=1_000_000).contains(number));
    number.ok_or_else(|| Failure::Usage(format!("a number is from 1 to 1000000, not {word:?}")))
}

/// All cases, the empty one first.
fn cases() -> Vec<Case> {
    let mut cases = vec![codec::empty()];
    cases.extend(client::cases());
    cases.extend(server::cases());
    cases.extend(codec::cases());
    cases
}

/// Runs one case so many times.
fn count(name: &str, times: u64) -> Result<(), Failure> {
    let cases = cases();
    let named = cases.iter().find(|case| case.name == name);
    named.ok_or_else(|| Failure::Usage(format!("no case is named {name:?}")))?.repeat(times, &mut Lent::new())
}

/// Times all cases in turns. Prints each with its answer and the least time of a call; what the empty one takes is
/// taken from that of the others.
fn time(rounds: u64) -> Result<(), Failure> {
    let (cases, mut lent) = (cases(), Lent::new());
    let mut least = vec![f64::INFINITY; cases.len()];
    cases.iter().try_for_each(|case| case.rehearse(&mut lent))?;
    for _ in 0..rounds {
        for (case, least) in cases.iter().zip(&mut least) {
            let began = Instant::now();
            case.repeat(BATCH, &mut lent)?;
            *least = least.min(began.elapsed().as_nanos() as f64 / BATCH as f64);
        }
    }
    say(&format!("{:<44} {:>6} {:>10}", "case", "answer", "ns"));
    for (case, time) in cases.iter().zip(&least) {
        let time = if case.name == codec::EMPTY { *time } else { time - least[0] };
        say(&format!("{:<44} {:>6} {time:>10.1}", case.name, case.expected.answer));
    }
    Ok(())
}

#[cfg(test)]
mod tests {
    use super::*;
    use std::collections::BTreeSet;

    #[test]
    fn each_case_is_answered_as_it_says() {
        let mut lent = Lent::new();
        for case in cases() {
            assert_eq!(case.rehearse(&mut lent), Ok(()));
            assert_eq!(case.repeat(2, &mut lent), Ok(()));
        }
    }

    #[test]
    fn a_wrong_answer_is_told() {
        let mut case = codec::empty();
        case.expected = case::Expected::refused(9);
        let told = |result| matches!(result, Err(Failure::Failed(text)) if text.starts_with("empty: "));
        assert!(told(case.rehearse(&mut Lent::new())));
        assert!(told(case.repeat(1, &mut Lent::new())));
    }

    #[test]
    fn cases_have_names_of_their_own() {
        let cases = cases();
        let names: BTreeSet<_> = cases.iter().map(|case| &case.name).collect();
        assert_eq!(names.len(), cases.len());
    }
}
