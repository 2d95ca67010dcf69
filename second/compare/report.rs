//! What the comparison prints.

use crate::bench::bench::Bench;
use crate::coverage::counts::Told;
use std::io::{self, Write};

/// So many names that were not reached or not foreseen are told; the others are counted.
const TOLD: usize = 20;

/// What the comparison found.
#[derive(Clone, Copy, PartialEq, Eq)]
pub struct Verdict {
    pub agrees: bool,
    /// All names were reached, and nothing that has none.
    pub reaches_all: bool,
}

/// Prints what was reached and what was not, the first differences, and the line of counts. With
/// the table, every name is printed with its count.
pub fn report(bench: Bench, with_table: bool, output: &mut impl Write) -> io::Result<Verdict> {
    let findings = bench.findings;
    let told = bench.coverage.counts.told();
    if with_table {
        for (name, times) in &told.counts {
            writeln!(output, "{times:>10} {name}")?;
        }
    }
    let reaches_all = report_groups(&told, output)?;
    for difference in findings.told() {
        write!(output, "{difference}")?;
    }
    if findings.broken > 0 {
        writeln!(output, "demand 3 failed {} times", findings.broken)?;
    }
    let (events, differences) = (findings.events, findings.differences);
    writeln!(output, "{events} events, {differences} differences")?;
    Ok(Verdict {
        agrees: differences == 0 && findings.broken == 0,
        reaches_all,
    })
}

/// Prints how many names of each group were reached, the first that were not, and the first that no
/// group has. Gives whether there are neither.
fn report_groups(told: &Told, output: &mut impl Write) -> io::Result<bool> {
    let mut missing = Vec::new();
    for (what, counts) in told.groups() {
        let not_reached = counts.iter().filter(|(_, times)| *times == 0);
        let before = missing.len();
        missing.extend(not_reached.map(|(name, _)| name));
        let reached = counts.len() - (missing.len() - before);
        writeln!(output, "{what}: {reached} of {} reached", counts.len())?;
    }
    let other: Vec<&String> = told.not_foreseen().iter().map(|(name, _)| name).collect();
    report_names("not reached", &missing, output)?;
    report_names("not foreseen", &other, output)?;
    Ok(missing.is_empty() && other.is_empty())
}

/// Prints the first of the names, and how many more there are.
fn report_names(what: &str, names: &[&String], output: &mut impl Write) -> io::Result<()> {
    for name in names.iter().take(TOLD) {
        writeln!(output, "{what}: {name}")?;
    }
    if names.len() > TOLD {
        let more = names.len() - TOLD;
        writeln!(output, "{what}: {more} more; `second table` tells all")?;
    }
    Ok(())
}
