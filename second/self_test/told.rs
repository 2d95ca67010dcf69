//! The stories of systems bring about what they are told for, and demand 3 holds over them.

use super::all::check;
use super::checked::Checked;
use crate::bench::bench::Bench;
use crate::systems::run::Author;
use crate::systems::stories::tell;

/// What the stories reach, as it is counted.
const REACHED: [&str; 28] = [
    "system client-arrive-answer-17",
    "system client fault in RECEIVE_FRAGS: to FAULT",
    "system client nocall in DISPATCHED: the resends are 5",
    "system server-fault-answer-20",
    "system server-transmit-answer-20",
    "system server-timer-answer-20",
    "system client nocall in DISPATCHED: again from the first unacknowledged",
    "system client nocall in DISPATCHED: again from 0, all are acknowledged",
    "system server RESEND in HELD_DATA: again from the first unacknowledged",
    "system server request in HELD_DATA: equal, again from the first unacknowledged",
    "system server ping in HELD_DATA: equal, again from the first unacknowledged",
    "system server RESEND in HELD_DATA: again from 0, all are acknowledged",
    "system server request in HELD_DATA: equal, again from 0, all are acknowledged",
    "system server ping in HELD_DATA: equal, again from 0, all are acknowledged",
    "system server ack in HELD_DATA: to IDLE spent",
    "system calls completed after a resend from the middle",
    "system calls completed after a replay from the middle",
    "system calls dispatched, acknowledged in part, given up by cause 2",
    "system client cancel_ack in SEND_FRAGS: CANCEL disarmed",
    "system client CANCEL in DISPATCHED: to FAULT",
    "system server cancel in HELD_FAULT: equal, sends cancel_ack 0",
    "system calls cancelled, then completed",
    "system calls cancelled, then faulted",
    "system calls cancelled, then given up by cause 2",
    "system calls cancelled, then given up by cause 3",
    "system cancels noticed: one above the last",
    "system cancels noticed: an old one in another run",
    "system cancels noticed: a later one in another run",
];

pub fn self_test() -> Result<(), &'static str> {
    let library = Checked::default();
    let mut author = Author::new(Bench::new(Box::new(library)), 1, u64::MAX);
    author.bench.coverage.begin_system();
    check(
        tell(&mut author).is_ok(),
        "the stories as they are told, and demand 3",
    )?;
    let counts = author.into_bench().coverage.counts.told().counts;
    for reached in REACHED {
        let is_counted = |(name, times): &(String, u64)| name == reached && *times > 0;
        check(counts.iter().any(is_counted), reached)?;
    }
    Ok(())
}
