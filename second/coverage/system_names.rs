//! All that can be reached of a client and a server that are joined, by name.

use crate::coverage::counts::Group;
use crate::coverage::fack::sent_fack_names;
use crate::coverage::side_names::{row_names, state_names};
use crate::records::client::ClientSide;
use crate::records::server::ServerSide;
use crate::records::side::Side;

pub fn mark_name(idempotent: bool) -> &'static str {
    match idempotent {
        true => "idempotent",
        false => "not idempotent",
    }
}

/// The answers that each event can get. Records are sound, PDUs are those of the other side, no
/// call number is the last, and a server hears nothing that contradicts its call.
const ANSWERS: [(&str, &[u8]); 10] = [
    ("client-start", &[0, 1, 15]),
    ("client-cancel", &[0, 1, 15, 20]),
    ("client-transmit", &[0, 1, 15, 20]),
    ("client-arrive", &[0, 1, 13, 15, 16, 17, 20]),
    ("client-timer", &[0, 1, 15, 18, 20]),
    ("server-transmit", &[0, 1, 15, 20]),
    ("server-arrive", &[0, 1, 13, 15, 16]),
    ("server-timer", &[0, 1, 15, 18, 20]),
    ("server-reply", &[0, 1, 15]),
    ("server-fault", &[0, 1, 15, 20]),
];

const FACTS: [&str; 33] = [
    "system runs",
    "system calls started: idempotent",
    "system calls started: not idempotent",
    "system calls dispatched the first time: idempotent",
    "system calls dispatched the first time: not idempotent",
    "system calls dispatched the second time: idempotent",
    "system calls dispatched once more: idempotent",
    "system calls completed: idempotent",
    "system calls completed: not idempotent",
    "system calls completed after more than one dispatch",
    "system calls completed after a resend from the middle",
    "system calls completed after a replay from the middle",
    "system calls dispatched, acknowledged in part, given up by cause 1",
    "system calls dispatched, acknowledged in part, given up by cause 2",
    "system calls dispatched, acknowledged in part, given up by cause 3",
    "system client notice fault",
    "system client notice cause:1",
    "system client notice cause:2",
    "system client notice cause:3",
    "system server notice dispatch",
    "system server notice cancel",
    "system calls cancelled the first time",
    "system calls cancelled once more",
    "system calls cancelled, then completed",
    "system calls cancelled, then faulted",
    "system calls cancelled, then given up by cause 1",
    "system calls cancelled, then given up by cause 2",
    "system calls cancelled, then given up by cause 3",
    "system cancels noticed: the first one",
    "system cancels noticed: one above the last",
    "system cancels noticed: an old one in another run",
    "system cancels noticed: a later one in another run",
    "system cancels answered by a fault",
];

/// Rows that the two sides cannot reach together; a row is named by a part of its name.
const OUT_OF_REACH: [&str; 9] = [
    // A server sends no reject.
    "client reject",
    // A client is in RECEIVE_FRAGS from the first fragment of several on, and each of these is
    // facked. A reply that is one fragment completes at once, and is not.
    "client response in SEND_FRAGS: put, complete, ACK armed, fack",
    "client response in SEND_FRAGS: put, complete, idempotent, fack",
    "client response in DISPATCHED: put, complete, ACK armed, fack",
    "client response in DISPATCHED: put, complete, idempotent, fack",
    "client response in RECEIVE_FRAGS: put, complete, ACK armed, no fack",
    "client response in RECEIVE_FRAGS: put, complete, idempotent, no fack",
    // A client acknowledges no fault.
    "server fack in HELD_FAULT",
    "server ack in HELD_FAULT",
];

/// Neither side forbids a fack, so that each of several fragments gets one. A request that
/// dispatches at once is one fragment, and gets none.
fn is_out_of_reach(row: &str) -> bool {
    let dispatches_at_once = row.contains("newer") || row.contains("IDLE_REPEATABLE: equal");
    let is_unlike = match dispatches_at_once {
        true => row.ends_with("dispatch, fack"),
        false => row.ends_with("dispatch, no fack"),
    };
    is_unlike
        || row.ends_with("not complete, no fack")
        || OUT_OF_REACH.iter().any(|part| row.starts_with(part))
}

/// All names of a client and a server that are joined.
pub fn groups() -> Vec<Group> {
    let parts = [
        ("calls, notices and facks", fact_names()),
        ("rows", all_row_names()),
        ("changes of state", all_state_names()),
        ("answers", answer_names()),
    ];
    let told = parts.map(|(what, names)| (format!("system {what}"), names));
    told.into()
}

fn fact_names() -> Vec<String> {
    let mut names = FACTS.map(String::from).to_vec();
    names.extend(["last", "count"].map(|notice| format!("system client notice {notice}")));
    let facks = [ClientSide::WORDS, ServerSide::WORDS].map(|words| sent_fack_names(words.side));
    names.extend(facks.concat().iter().map(|fack| format!("system {fack}")));
    names
}

fn all_row_names() -> Vec<String> {
    let rows = row_names::<ClientSide>()
        .into_iter()
        .chain(row_names::<ServerSide>())
        .filter(|row| !is_out_of_reach(row));
    rows.map(|row| format!("system {row}")).collect()
}

fn all_state_names() -> Vec<String> {
    let states = state_names::<ClientSide>()
        .into_iter()
        .chain(state_names::<ServerSide>());
    states.map(|change| format!("system {change}")).collect()
}

fn answer_names() -> Vec<String> {
    let mut names = Vec::new();
    for (event, answers) in ANSWERS {
        let of_event = answers
            .iter()
            .map(|answer| format!("system {event}-answer-{answer}"));
        names.extend(of_event);
    }
    names
}
