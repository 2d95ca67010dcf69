//! Events of every kind, played with this implementation in the library's place: once with every
//! call checked, and once with something wrong after every call. Of each the report is looked at.

use super::all::check;
use super::checked::{Broken, Checked};
use super::spoiled::Spoiled;
use crate::bench::bench::Bench;
use crate::compare::play::play;
use crate::compare::report::{report, Verdict};

const CHECKED_EVENTS: u64 = 20_000;
const SPOILED_EVENTS: u64 = 5_000;

pub fn self_test() -> Result<(), &'static str> {
    let broken = Broken::default();
    let checked = Checked {
        broken: Broken::clone(&broken),
    };
    let bench = play(Box::new(checked), 1, CHECKED_EVENTS);
    if let Some(name) = broken.get() {
        return Err(name);
    }
    check(bench.findings.broken == 0, "demand 3 over short runs")?;
    let (verdict, last_line) = verdict_on(bench)?;
    check(
        verdict.agrees && last_line == "20000 events, 0 differences",
        "a report of no difference",
    )?;
    check(!verdict.reaches_all, "a report of too few events")?;
    let bench = play(Box::new(Spoiled::default()), 1, SPOILED_EVENTS);
    let (verdict, last_line) = verdict_on(bench)?;
    check(
        !verdict.agrees && last_line == "5000 events, 5000 differences",
        "every wrong bit is found",
    )?;
    let mut bench = play(Box::new(Checked::default()), 1, 0);
    bench.findings.break_demand("this".into());
    check(!verdict_on(bench)?.0.agrees, "a report of a broken demand")
}

/// The verdict on what was played, and the last line that is printed of it.
fn verdict_on(bench: Bench) -> Result<(Verdict, String), &'static str> {
    let mut output = Vec::new();
    let verdict = report(bench, false, &mut output).map_err(|_| "a report")?;
    let text = String::from_utf8_lossy(&output);
    Ok((verdict, text.lines().last().unwrap_or_default().into()))
}
