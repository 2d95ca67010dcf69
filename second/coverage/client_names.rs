//! All that can be reached of the client, by name.
//!
//! Left out is what cannot be reached. At an arrival: 11 and 19 (a client takes no request), and 18.
//! 20 at the timers ACK and CANCEL, which arm nothing. Of the pairs of grounds: those of a datagram
//! under 80 bytes with what its header would say, those of an unknown type with what the type
//! decides, and those of different types.

use crate::coverage::client_cancel::{self, CANCEL_ROWS};
use crate::coverage::counts::pair_names;
use crate::coverage::side::put_names;
use crate::coverage::side_names::{lent_names, Named};
use crate::records::client::{ClientSide, State, TimerKind};
use crate::records::side::Side;

/// The rows of document 01's table; @ stands for each state that has the row. Those of cancels stand
/// with these.
const START_ROWS: [&str; 1] = ["client start in @"];
pub const ACTIVE_ROWS: [&str; 10] = [
    "client fack in @: acknowledged is raised",
    "client fack in @: acknowledged stays",
    "client response in @: put, not complete, fack",
    "client response in @: put, not complete, no fack",
    "client response in @: put, complete, ACK armed, fack",
    "client response in @: put, complete, ACK armed, no fack",
    "client response in @: put, complete, idempotent, fack",
    "client response in @: put, complete, idempotent, no fack",
    "client fault in @: to FAULT",
    "client reject in @: to FAULT",
];
pub const DISPATCHED_ROWS: [&str; 5] = [
    "client working in @: WAIT armed afresh",
    "client nocall in @: the resends are 5",
    "client nocall in @: again from the first unacknowledged",
    "client nocall in @: again from 0, none is acknowledged",
    "client nocall in @: again from 0, all are acknowledged",
];
pub const WAIT_ROWS: [&str; 2] = [
    "client WAIT in @: the count is 5",
    "client WAIT in @: sends",
];
const ACK_ROWS: [&str; 1] = ["client ACK in @: sends"];
pub const TRANSMIT_ROWS: [&str; 3] = [
    "client transmit: the only fragment",
    "client transmit: the last fragment",
    "client transmit: not the last fragment",
];

/// The types of PDU that a client takes.
const TAKEN: [&str; 7] = [
    "response",
    "fault",
    "working",
    "nocall",
    "reject",
    "fack",
    "cancel_ack",
];

const DETAILS: [&str; 19] = [
    "client done without a ticket left: start",
    "client done without a ticket left: transmit",
    "client done without a ticket left: response",
    "client done without a ticket left: fault",
    "client done without a ticket left: nocall",
    "client done without a ticket left: reject",
    "client done without a ticket left: fack",
    "client done without a ticket left: WAIT",
    "client done without a ticket left: ACK",
    "client done without a ticket left: cancel",
    "client done without a ticket left: cancel_ack",
    "client done without a ticket left: CANCEL",
    "client notice last",
    "client notice count",
    "client notice fault",
    "client notice reject",
    "client notice cause:1",
    "client notice cause:2",
    "client notice cause:3",
];

impl Named for ClientSide {
    const EVENTS: &'static [&'static str] = &["start", "cancel", "transmit", "arrive", "timer"];
    const OTHER_ROWS: &'static [&'static str] = &TRANSMIT_ROWS;

    fn answers(event: &str, state: State) -> Vec<u8> {
        let arrival = [1, 2, 3, 4, 5, 6, 7, 8, 9, 10, 12, 13];
        match (event, state) {
            ("start", State::Queued) => vec![0, 1, 2],
            ("start", _) if state.may_start() => vec![0, 1, 2, 19],
            ("cancel", _) if state.is_active() => vec![0, 1, 2, 15, 20],
            ("transmit", State::SendFrags) => vec![0, 1, 2, 20],
            ("timer", State::Dispatched | State::ReceiveFrags) => vec![0, 1, 2, 15, 18, 20],
            ("timer", State::SendFrags | State::AckPending) => vec![0, 1, 2, 15, 18],
            ("arrive", State::Queued) => arrival.to_vec(),
            ("arrive", _) if state.is_active() => [&arrival[..], &[0, 14, 15, 16, 17, 20]].concat(),
            ("arrive", _) => [&arrival[..], &[14, 15]].concat(),
            _ => vec![1, 2, 15],
        }
    }

    fn rows(state: State) -> Vec<(bool, &'static [&'static str])> {
        vec![
            (state.may_start(), &START_ROWS),
            (state.is_active(), &ACTIVE_ROWS),
            (state.is_active(), &CANCEL_ROWS),
            (state == State::Dispatched, &DISPATCHED_ROWS),
            (state.names(TimerKind::Wait), &WAIT_ROWS),
            (state.names(TimerKind::Ack), &ACK_ROWS),
        ]
    }

    fn reached(state: State) -> &'static str {
        match state {
            State::Queued | State::Complete | State::Fault => "SEND_FRAGS",
            State::SendFrags => "SEND_FRAGS DISPATCHED RECEIVE_FRAGS ACK_PENDING COMPLETE FAULT",
            State::Dispatched => "SEND_FRAGS DISPATCHED RECEIVE_FRAGS ACK_PENDING COMPLETE FAULT",
            State::ReceiveFrags => "RECEIVE_FRAGS ACK_PENDING COMPLETE FAULT",
            State::AckPending => "SEND_FRAGS COMPLETE",
        }
    }

    fn ground_names() -> Vec<String> {
        let mut names = pair_names("client-start", &[1, 2, 15, 19]);
        names.extend(pair_names("client-cancel", &[1, 2, 15, 20]));
        names.extend(pair_names("client-transmit", &[1, 2, 15, 20]));
        names.extend(pair_names("client-timer", &[1, 2, 15, 18, 20]));
        names
    }

    const ARRIVE_PAIRS: &'static [(&'static [u8], &'static [u8])] = &[
        (&[1, 2, 4, 6, 7, 8], &[9, 10, 12, 13, 14, 15, 16, 17, 20]),
        (&[5], &[9, 13]),
        (&[9], &[10, 12, 13, 14, 15, 16, 17, 20]),
        (&[10], &[12, 13, 14, 15]),
        (&[12], &[13, 15, 16, 17, 20]),
        (&[13], &[14, 15, 16, 17, 20]),
        (&[14], &[15, 17]),
        (&[15], &[16, 17, 20]),
        (&[16], &[17, 20]),
        (&[17], &[20]),
    ];

    fn detail_names() -> Vec<String> {
        let mut names = DETAILS.map(String::from).to_vec();
        names.extend(lent_names(&ClientSide::WORDS));
        names.extend(["version", "length"].map(|what| format!("client fack malformed: {what}")));
        for kind in ["request", "ping", "ack", "fack", "cancel"] {
            let marks = ["is", "is not"];
            names.extend(
                marks.map(|mark| format!("client sends {kind} of a call that {mark} idempotent")),
            );
        }
        for kind in TAKEN {
            names.extend(["little", "big"].map(|order| format!("client {kind} taken, {order}")));
        }
        names.extend(put_names(&ClientSide::WORDS));
        for length in 0..4 {
            let kinds = ["fault", "reject"];
            names.extend(kinds.map(|kind| format!("client {kind} malformed: {length} bytes")));
        }
        names.extend(client_cancel::names());
        names
    }
}
