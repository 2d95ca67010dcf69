//! Counts what the events reach. What they do not reach is told too, with a count of 0.

use super::counts::Counts;
use super::step::{self, Counted, Step};
use super::system::Calls;
use super::{bytes, codec, lent, side_names, system_names};
use crate::bench::memory::Lengths;
use crate::records::client::ClientSide;
use crate::records::record::Record;
use crate::records::server::ServerSide;

/// The functions that can give grounds for two answers.
const FUNCTIONS: [&str; 12] = [
    "read",
    "write",
    "client-start",
    "client-cancel",
    "client-transmit",
    "client-arrive",
    "client-timer",
    "server-transmit",
    "server-arrive",
    "server-timer",
    "server-reply",
    "server-fault",
];

pub struct Coverage {
    pub counts: Counts,
    /// The calls of the run, where both sides are joined.
    calls: Option<Calls>,
}

impl Coverage {
    pub fn new() -> Coverage {
        let groups = [
            vec![("reader and writer".into(), codec::names())],
            side_names::groups::<ClientSide>(),
            side_names::groups::<ServerSide>(),
            bytes::groups::<ClientSide>(),
            bytes::groups::<ServerSide>(),
            system_names::groups(),
        ];
        Coverage {
            counts: Counts::new(groups.concat(), &FUNCTIONS),
            calls: None,
        }
    }

    /// A run begins in which both sides are joined.
    pub fn begin_system(&mut self) {
        self.counts.add_name("system runs");
        self.calls = Some(Calls::default());
    }

    pub fn end_system(&mut self) {
        self.calls = None;
    }

    pub fn count_event<S: Counted>(&mut self, step: &Step<S>) {
        step::count_event(step, self.calls.is_some(), &mut self.counts);
        if let Some(calls) = &mut self.calls {
            if step.answer == 0 {
                S::count_in_system(step, calls, &mut self.counts);
            }
        }
    }

    pub fn count_hand_up<S: Counted>(&mut self, number: u16, record: &Record<S>, lengths: Lengths) {
        lent::count_hand_up(number, record, lengths, &mut self.counts);
    }
}
