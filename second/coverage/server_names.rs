//! All that can be reached of the server, by name.
//!
//! Left out is what cannot be reached. At an arrival: 18, 19 and 20, since none arms a timer; 13 in
//! IDLE_FRESH, which has no number; 16 where nothing is put. Of the pairs of grounds: those of a
//! datagram under 80 bytes with what its header would say, those of an unknown type with what the
//! type decides, those of different types, and those of rows that exclude each other.

use crate::coverage::counts::pair_names;
use crate::coverage::server_cancel::{self, CANCEL_ROWS, RUNNING_CANCEL_ROWS};
use crate::coverage::side::put_names;
use crate::coverage::side_names::{lent_names, Named};
use crate::records::server::{ServerSide, State};
use crate::records::side::Side;

/// The rows of document 01's table; @ stands for each state that has the row. Those of cancels stand
/// with these.
const BEGIN_ROWS: [&str; 4] = [
    "server request in @: newer, put, not complete, fack",
    "server request in @: newer, put, not complete, no fack",
    "server request in @: newer, put, dispatch, fack",
    "server request in @: newer, put, dispatch, no fack",
];
const PUT_ROWS: [&str; 4] = [
    "server request in @: equal, put, not complete, fack",
    "server request in @: equal, put, not complete, no fack",
    "server request in @: equal, put, dispatch, fack",
    "server request in @: equal, put, dispatch, no fack",
];
const NEWER_PING_ROWS: [&str; 1] = ["server ping in @: newer, sends nocall"];
const EQUAL_PING_ROWS: [&str; 1] = ["server ping in @: equal, sends nocall"];
const RUNNING_ROWS: [&str; 2] = [
    "server request in @: equal, sends working",
    "server ping in @: equal, sends working",
];
const DATA_ROWS: [&str; 12] = [
    "server request in @: equal, again from the first unacknowledged",
    "server request in @: equal, again from 0, none is acknowledged",
    "server request in @: equal, again from 0, all are acknowledged",
    "server ping in @: equal, again from the first unacknowledged",
    "server ping in @: equal, again from 0, none is acknowledged",
    "server ping in @: equal, again from 0, all are acknowledged",
    "server RESEND in @: again from the first unacknowledged",
    "server RESEND in @: again from 0, none is acknowledged",
    "server RESEND in @: again from 0, all are acknowledged",
    "server RESEND in @: the count is 5",
    "server fack in @: acknowledged is raised",
    "server fack in @: acknowledged stays",
];
const FAULT_ROWS: [&str; 5] = [
    "server request in @: equal, sends the fault",
    "server ping in @: equal, sends the fault",
    "server RESEND in @: sends the fault",
    "server RESEND in @: the count is 5",
    "server fack in @: acknowledged stays",
];
const REPLYING_ROWS: [&str; 2] = [
    "server fack in @: acknowledged is raised",
    "server fack in @: acknowledged stays",
];
const ACK_ROWS: [&str; 1] = ["server ack in @: to IDLE spent"];
const OTHER_ROWS: [&str; 8] = [
    "server transmit: not the last fragment",
    "server transmit: the only fragment, idempotent",
    "server transmit: the only fragment, not idempotent",
    "server transmit: the last fragment, idempotent",
    "server transmit: the last fragment, not idempotent",
    "server reply",
    "server fault, idempotent",
    "server fault, not idempotent",
];

/// What is done without a ticket left, noticed and sent.
const DONE: [&str; 17] = [
    "server done without a ticket left: transmit",
    "server done without a ticket left: timer",
    "server done without a ticket left: reply",
    "server done without a ticket left: fault",
    "server done without a ticket left: request",
    "server done without a ticket left: ping",
    "server done without a ticket left: fack",
    "server done without a ticket left: ack",
    "server done without a ticket left: cancel",
    "server notice dispatch",
    "server notice cancel",
    "server sends response",
    "server sends fault",
    "server sends working",
    "server sends nocall",
    "server sends fack",
    "server sends cancel_ack",
];

const DETAILS: [&str; 46] = [
    "server length refused at fault: PDU buffer",
    "server request taken, little",
    "server request taken, big",
    "server ping taken, little",
    "server ping taken, big",
    "server fack taken, little",
    "server fack taken, big",
    "server ack taken, little",
    "server ack taken, big",
    "server cancel taken, little",
    "server cancel taken, big",
    "server old request: older",
    "server old ping: older",
    "server old fack: older",
    "server old ack: older",
    "server old cancel: older",
    "server old request: spent in IDLE_SPENT",
    "server old request: spent in IDLE_REPEATABLE",
    "server has no row for a newer request",
    "server has no row for a newer fack",
    "server has no row for a newer ack",
    "server has no row for a newer cancel",
    "server has no row for a newer fack in IDLE_FRESH",
    "server has no row for a newer ack in IDLE_FRESH",
    "server has no row for a newer cancel in IDLE_FRESH",
    "server has no row for an untimely fack",
    "server has no row for an untimely ack",
    "server has no row for an untimely cancel",
    "server has no row for the ack",
    "server repeated request in COLLECT",
    "server repeated request in REPLYING",
    "server repeated ping in REPLYING",
    "server request with the forbidden bits 16",
    "server request with the forbidden bits 64",
    "server request with the forbidden bits 80",
    "server request contradicts the slots in COLLECT",
    "server request contradicts the slots in RUNNING",
    "server request contradicts the slots in HELD_DATA",
    "server request contradicts the slots in HELD_FAULT",
    "server request of another call: idempotent bit",
    "server request of another call: object",
    "server request of another call: interface",
    "server request of another call: version",
    "server request of another call: operation",
    "server fack malformed: version",
    "server fack malformed: length",
];

impl Named for ServerSide {
    const EVENTS: &'static [&'static str] = &["transmit", "arrive", "timer", "reply", "fault"];
    const OTHER_ROWS: &'static [&'static str] = &OTHER_ROWS;

    fn answers(event: &str, state: State) -> Vec<u8> {
        let arrival = [0, 1, 2, 3, 4, 5, 6, 7, 8, 9, 10, 11, 12, 14, 15];
        match (event, state) {
            ("transmit", State::Replying) => vec![0, 1, 2, 20],
            ("timer", State::HeldData) => vec![0, 1, 2, 18],
            ("timer", State::HeldFault) => vec![0, 1, 2, 18, 20],
            ("reply", State::Running) => vec![0, 1, 2],
            ("fault", State::Running) => vec![0, 1, 2, 20],
            ("arrive", State::IdleFresh) => arrival.to_vec(),
            ("arrive", State::IdleSpent) => [&arrival[..], &[13]].concat(),
            ("arrive", State::Collect | State::Replying) => [&arrival[..], &[13, 16, 17]].concat(),
            ("arrive", _) => [&arrival[..], &[13, 17]].concat(),
            _ => vec![1, 2, 15],
        }
    }

    fn rows(state: State) -> Vec<(bool, &'static [&'static str])> {
        let may_put = matches!(state, State::Collect | State::IdleRepeatable);
        let has_no_call = may_put || state == State::IdleSpent;
        vec![
            (state != State::Running, &BEGIN_ROWS),
            (may_put, &PUT_ROWS),
            (true, &NEWER_PING_ROWS),
            (has_no_call, &EQUAL_PING_ROWS),
            (state == State::Running, &RUNNING_ROWS),
            (state == State::Replying, &REPLYING_ROWS),
            (state == State::HeldData, &DATA_ROWS),
            (state == State::HeldFault, &FAULT_ROWS),
            (state.has_answer(), &ACK_ROWS),
            (state == State::Running, &RUNNING_CANCEL_ROWS),
            (state == State::Collect || state.has_answer(), &CANCEL_ROWS),
        ]
    }

    fn reached(state: State) -> &'static str {
        match state {
            State::IdleFresh => "IDLE_FRESH COLLECT RUNNING",
            State::IdleSpent => "IDLE_SPENT COLLECT RUNNING",
            State::IdleRepeatable => "IDLE_REPEATABLE COLLECT RUNNING",
            State::Collect => "COLLECT RUNNING",
            State::Running => "RUNNING REPLYING HELD_FAULT IDLE_REPEATABLE",
            State::Replying => "REPLYING HELD_DATA IDLE_REPEATABLE IDLE_SPENT COLLECT RUNNING",
            State::HeldData => "HELD_DATA REPLYING IDLE_SPENT COLLECT RUNNING",
            State::HeldFault => "HELD_FAULT IDLE_SPENT COLLECT RUNNING",
        }
    }

    fn ground_names() -> Vec<String> {
        let mut names = pair_names("server-transmit", &[1, 2, 15, 20]);
        names.extend(pair_names("server-timer", &[1, 2, 15, 18]));
        names.extend([1, 2, 18].map(|low| format!("server-timer-both-{low}-20")));
        names.extend(pair_names("server-reply", &[1, 2, 15]));
        names.extend(pair_names("server-fault", &[1, 2, 15, 20]));
        names
    }

    const ARRIVE_PAIRS: &'static [(&'static [u8], &'static [u8])] = &[
        (&[1, 2, 4, 6, 7, 8], &[9, 10, 11, 12, 13, 14, 15, 16, 17]),
        (&[5], &[9, 13]),
        (&[9], &[10, 11, 12, 13, 14, 15, 16, 17]),
        (&[10], &[12, 13, 14, 15]),
        (&[11], &[12, 13, 15, 16, 17]),
        (&[12], &[13, 15, 16, 17]),
        (&[13], &[14, 15, 16, 17]),
        (&[14], &[15, 17]),
        (&[15, 16], &[17]),
    ];

    fn detail_names() -> Vec<String> {
        let mut names = DONE.map(String::from).to_vec();
        names.extend(lent_names(&ServerSide::WORDS));
        names.extend(DETAILS.map(String::from));
        names.extend(put_names(&ServerSide::WORDS));
        names.extend(server_cancel::names());
        names
    }
}
