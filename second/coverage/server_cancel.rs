//! What is counted of the cancels that arrive at the server, and all that can be reached of them,
//! by name.

use crate::codec::cancel;
use crate::codec::pdu::{pdu_type, Pdu};
use crate::coverage::cancel::{
    count_malformed, count_sent, form_name, malformed_names, sent_names,
};
use crate::coverage::counts::Counts;
use crate::coverage::server::ServerStep;
use crate::machines::effect::Notice;
use crate::machines::server_row::Age;
use crate::records::call::Call;
use crate::records::server::{State, STATES};
use std::cmp::Ordering;

/// The rows of a cancel; @ stands for each state that has the row.
pub const CANCEL_ROWS: [&str; 1] = ["server cancel in @: equal, sends cancel_ack 0"];
pub const RUNNING_CANCEL_ROWS: [&str; 2] = [
    "server cancel in @: equal, notice, sends cancel_ack 1",
    "server cancel in @: equal, no notice, sends cancel_ack 1",
];

/// What a cancel brings about that is answered.
pub fn cancel_outcome(step: &ServerStep) -> &'static str {
    match (step.before.state, step.effect.notice) {
        (State::Running, Some(Notice::Cancel)) => "equal, notice, sends cancel_ack 1",
        (State::Running, _) => "equal, no notice, sends cancel_ack 1",
        _ => "equal, sends cancel_ack 0",
    }
}

/// Counts what a PDU reaches of the cancels.
pub fn count(pdu: &Pdu, step: &ServerStep, counts: &mut Counts) {
    match pdu.header.pdu_type {
        pdu_type::CANCEL => count_cancel(pdu, step, counts),
        pdu_type::REQUEST if step.answer == 0 => count_forgotten(pdu, step, counts),
        _ => {}
    }
}

fn age_name(age: Age) -> &'static str {
    match age {
        Age::Older => "older",
        Age::Equal => "equal",
        Age::Newer => "newer",
    }
}

fn count_cancel(pdu: &Pdu, step: &ServerStep, counts: &mut Counts) {
    if let answer @ (0 | 13 | 14 | 15) = step.answer {
        let age = age_name(step.before.age(pdu.header.call_number));
        let (state, form) = (step.before.state.name(), form_name(pdu));
        counts.add(format_args!(
            "server cancel in {state}: {age}, {form}: {answer}"
        ));
    }
    match step.answer {
        0 => count_taken(pdu, step, counts),
        14 => count_malformed("server", pdu, counts),
        _ => {}
    }
}

fn count_taken(pdu: &Pdu, step: &ServerStep, counts: &mut Counts) {
    count_sent("server", step.pdu, counts);
    let call = Call {
        idempotent: step.before.call.idempotent,
        ..Call::of_header(&pdu.header)
    };
    if call != step.before.call {
        counts.add_name("server cancel_ack: echoes what is not its call's");
    }
    if step.before.outgoing.serial != 0 {
        counts.add_name("server cancel_ack: the serial as it is");
    }
    let number = cancel::number(pdu.body, pdu.order);
    if let (State::Running, Some(number)) = (step.before.state, number) {
        let place = place_name(number, step.before.own.cancel_number);
        counts.add(format_args!("server cancel while it runs: {place}"));
    }
}

/// How the number of a cancel compares with the last one seen. What is far away would be on the
/// other side if numbers wrapped.
fn place_name(number: u32, seen: u32) -> &'static str {
    let distance = number.abs_diff(seen);
    match (number.cmp(&seen), distance) {
        (Ordering::Equal, _) if seen == 0 => "0 where none is seen",
        (Ordering::Equal, _) => "the last seen",
        (Ordering::Less, 1) => "one below the last seen",
        (Ordering::Less, 0x8000_0000..) => "far below the last seen",
        (Ordering::Less, _) => "below the last seen",
        (Ordering::Greater, 1) => "one above the last seen",
        (Ordering::Greater, 0x8000_0000..) => "far above the last seen",
        (Ordering::Greater, _) => "above the last seen",
    }
}

/// Counts a begin that forgets the last cancel seen.
fn count_forgotten(pdu: &Pdu, step: &ServerStep, counts: &mut Counts) {
    let age = step.before.age(pdu.header.call_number);
    let begins = age == Age::Newer || step.before.state == State::IdleRepeatable;
    if begins && step.before.own.cancel_number != 0 {
        let age = age_name(age);
        counts.add(format_args!(
            "server begin, {age}: the cancel number forgotten"
        ));
    }
}

/// What is told once.
const DETAILS: [&str; 12] = [
    "server cancel_ack: echoes what is not its call's",
    "server cancel_ack: the serial as it is",
    "server cancel while it runs: 0 where none is seen",
    "server cancel while it runs: the last seen",
    "server cancel while it runs: one below the last seen",
    "server cancel while it runs: below the last seen",
    "server cancel while it runs: far below the last seen",
    "server cancel while it runs: one above the last seen",
    "server cancel while it runs: above the last seen",
    "server cancel while it runs: far above the last seen",
    "server begin, newer: the cancel number forgotten",
    "server begin, equal: the cancel number forgotten",
];

/// The cancels of each age and form in each state with the answers that they get. All are newer
/// than a fresh server.
fn case_names() -> Vec<String> {
    let mut names = Vec::new();
    for state in STATES {
        let equal = if state.answers_cancel() { 0 } else { 15 };
        let newer = [("newer", "well formed", 15), ("newer", "malformed", 14)];
        let others = [
            ("equal", "well formed", equal),
            ("equal", "malformed", 14),
            ("older", "well formed", 13),
            ("older", "malformed", 13),
        ];
        let cases = match state {
            State::IdleFresh => newer.to_vec(),
            _ => [&newer[..], &others].concat(),
        };
        let told = cases.iter().map(|(age, form, answer)| {
            format!("server cancel in {}: {age}, {form}: {answer}", state.name())
        });
        names.extend(told);
    }
    names
}

/// All that can be reached of the cancels, but for the rows.
pub fn names() -> Vec<String> {
    let mut names = DETAILS.map(String::from).to_vec();
    names.extend(sent_names("server", pdu_type::CANCEL_ACK));
    names.extend(malformed_names("server", pdu_type::CANCEL));
    names.extend(case_names());
    names
}
