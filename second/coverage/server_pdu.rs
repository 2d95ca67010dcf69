//! Counts what is reached of the PDUs that arrive at the server, by what is judged in them.

use crate::codec::pdu::{flags1, pdu_type, Header, Pdu};
use crate::coverage::boundary::Boundary;
use crate::coverage::counts::Counts;
use crate::coverage::server::ServerStep;
use crate::coverage::side::{contradiction_name, count_put, type_name, Put};
use crate::machines::server_row::Age;
use crate::records::call::Call;
use crate::records::incoming::{Fragment, Incoming};
use crate::records::server::{Server, ServerSide, State};
use crate::records::side::Side;

pub fn count_pdu(pdu: &Pdu, step: &ServerStep, counts: &mut Counts) {
    let header = &pdu.header;
    let kind = type_name(header.pdu_type);
    let state = step.before.state.name();
    match step.answer {
        13 => counts.add(format_args!(
            "server old {kind}: {}",
            old_name(step, header)
        )),
        15 => counts.add(format_args!(
            "server has no row for {}",
            no_row_name(step, header)
        )),
        16 => counts.add(format_args!("server repeated {kind} in {state}")),
        _ => {}
    }
    if header.pdu_type == pdu_type::REQUEST {
        count_request(pdu, step, counts);
    }
}

fn old_name(step: &ServerStep, header: &Header) -> String {
    match step.before.age(header.call_number) {
        Age::Older => "older".into(),
        _ => format!("spent in {}", step.before.state.name()),
    }
}

fn no_row_name(step: &ServerStep, header: &Header) -> String {
    let kind = type_name(header.pdu_type);
    let age = match step.before.age(header.call_number) {
        Age::Newer => "a newer",
        _ if step.before.state.has_answer() => "the",
        _ => "an untimely",
    };
    match step.before.state {
        State::IdleFresh => format!("{age} {kind} in IDLE_FRESH"),
        _ => format!("{age} {kind}"),
    }
}

fn count_request(pdu: &Pdu, step: &ServerStep, counts: &mut Counts) {
    match step.answer {
        0 => count_taken_request(pdu, step, counts),
        11 => {
            let bits = pdu.header.flags1 & (flags1::MAYBE | flags1::BROADCAST);
            counts.add(format_args!(
                "server request with the forbidden bits {bits}"
            ));
        }
        17 => count_contradiction(pdu, step, counts),
        _ => {}
    }
}

/// A request that is put: one that begins, or one in COLLECT.
fn count_taken_request(pdu: &Pdu, step: &ServerStep, counts: &mut Counts) {
    let number = pdu.header.call_number;
    let is_newer = step.before.age(number) == Age::Newer;
    let empty = Incoming::empty();
    let before = match step.before.state {
        State::Collect if !is_newer => &step.before.incoming,
        State::IdleRepeatable => &empty,
        _ if is_newer => &empty,
        _ => return,
    };
    let put = Put {
        words: ServerSide::WORDS,
        before,
        after: &step.after.incoming,
    };
    count_put(&put, pdu, &step.effect, counts);
    if is_newer && number == u32::MAX {
        counts.add_name(&Boundary::LastCallNumber.name(&ServerSide::WORDS));
    }
}

fn count_contradiction(pdu: &Pdu, step: &ServerStep, counts: &mut Counts) {
    let fragment = Fragment::of(&pdu.header);
    let is_begin = step.before.state == State::IdleRepeatable;
    let differences = differences(step.before, &pdu.header);
    match contradiction_name(&step.before.incoming, fragment) {
        Some(what) if !is_begin && differences.is_empty() => {
            counts.add(format_args!("server request contradicts: {what}"));
            let state = step.before.state.name();
            counts.add(format_args!(
                "server request contradicts the slots in {state}"
            ));
        }
        _ => {}
    }
    if let [difference] = differences[..] {
        counts.add(format_args!("server request of another call: {difference}"));
    }
}

/// In what a request with the server's number names another call.
fn differences(server: &Server, header: &Header) -> Vec<&'static str> {
    let named = Call::of_header(header);
    let call = &server.call;
    let found = [
        ("idempotent bit", named.idempotent != call.idempotent),
        ("object", named.object != call.object),
        ("interface", named.interface != call.interface),
        ("version", named.version != call.version),
        ("operation", named.operation != call.operation),
    ];
    found
        .into_iter()
        .filter(|(_, differs)| *differs)
        .map(|(name, _)| name)
        .collect()
}
