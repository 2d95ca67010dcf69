//! What is counted of the client's cancels, and all that can be reached of them, by name.

use crate::codec::cancel;
use crate::codec::pdu::{pdu_type, Pdu};
use crate::coverage::cancel::{
    count_malformed, count_sent, form_name, malformed_names, sent_names,
};
use crate::coverage::client_names::{ACTIVE_ROWS, DISPATCHED_ROWS, TRANSMIT_ROWS, WAIT_ROWS};
use crate::coverage::counts::Counts;
use crate::coverage::step::Step;
use crate::machines::event::Event;
use crate::records::client::{
    ClientEvent, ClientSide, State, TimerKind, ACTIVE_STATES, STATES, TIMERS,
};

type ClientStep<'a> = Step<'a, ClientSide>;

/// The rows of the local cancel, of its timer and of a cancel_ack; @ stands for each active state.
pub const CANCEL_ROWS: [&str; 4] = [
    "client cancel in @: CANCEL armed, sends",
    "client cancel in @: CANCEL stays armed, sends",
    "client CANCEL in @: to FAULT",
    "client cancel_ack in @: CANCEL disarmed",
];

/// The row of a local cancel.
pub fn cancel_row(step: &ClientStep) -> String {
    let what = match step.before.own.cancel {
        Some(_) => "CANCEL stays armed, sends",
        None => "CANCEL armed, sends",
    };
    format!("client cancel in {}: {what}", step.before.state.name())
}

/// Counts what a step reaches of the cancels.
pub fn count(step: &ClientStep, pdu: Option<&Pdu>, counts: &mut Counts) {
    match step.event {
        Event::Own(ClientEvent::Cancel) => count_local(step, counts),
        Event::Own(ClientEvent::Start(_)) => count_forgotten(step, counts),
        Event::Timer { kind, ticket } if step.answer == 18 => {
            let what = late_name(step, *kind, *ticket);
            counts.add(format_args!("client late {}: {what}", kind.name()));
        }
        _ => {}
    }
    if let Some(pdu) = pdu {
        count_pdu(pdu, step, counts);
    }
}

/// Counts a row that is done where CANCEL was armed.
pub fn count_armed_row(step: &ClientStep, row: &str, counts: &mut Counts) {
    if step.before.own.cancel.is_some() {
        let what = match step.after.own.cancel == step.before.own.cancel {
            true => "stays armed",
            false => "disarmed",
        };
        counts.add(format_args!("CANCEL {what} in the row: {row}"));
    }
}

fn count_local(step: &ClientStep, counts: &mut Counts) {
    let own = &step.before.own;
    let is_used_up = step.before.state.is_active() && own.cancel_number == u32::MAX;
    match step.answer {
        0 => {
            count_sent("client", step.pdu, counts);
            if own.cancel_number == 0 && own.cancel.is_some() {
                counts.add_name("client cancel: CANCEL armed with the number 0");
            }
            if step.before.outgoing.serial != 0 {
                counts.add_name("client cancel: the serial as it is");
            }
        }
        15 if is_used_up => counts.add_name("client cancel: the numbers are used up"),
        15 => counts.add_name("client cancel: no active state"),
        _ => {}
    }
}

fn count_forgotten(step: &ClientStep, counts: &mut Counts) {
    if step.answer == 0 && step.before.own.cancel_number != 0 {
        counts.add_name("client start: the cancel number forgotten");
    }
}

/// Why a timer is late.
fn late_name(step: &ClientStep, kind: TimerKind, ticket: u64) -> &'static str {
    let others = TIMERS.into_iter().filter(|other| *other != kind);
    let mut others = others.map(|other| step.before.timer_of(other));
    if step.before.timer_of(kind).is_none() {
        "not armed"
    } else if others.any(|timer| timer == Some(ticket)) {
        "the ticket of another timer"
    } else {
        "another ticket"
    }
}

fn count_pdu(pdu: &Pdu, step: &ClientStep, counts: &mut Counts) {
    if pdu.header.pdu_type != pdu_type::CANCEL_ACK {
        return;
    }
    if let answer @ (0 | 13 | 14 | 15) = step.answer {
        let (state, case) = (step.before.state.name(), ack_case(pdu, step));
        counts.add(format_args!(
            "client cancel_ack in {state}: {case}: {answer}"
        ));
    }
    match step.answer {
        0 => {
            let accepts = pdu.body[8..].iter().any(|byte| *byte != 0);
            let mark = u8::from(accepts);
            counts.add(format_args!("client cancel_ack taken: accepts {mark}"));
            if pdu.body[4..8] == [0; 4] {
                counts.add_name("client cancel_ack taken: number 0");
            }
        }
        14 => count_malformed("client", pdu, counts),
        _ => {}
    }
}

/// Whose call a cancel_ack is of, its form, its number, and whether CANCEL is armed.
fn ack_case(pdu: &Pdu, step: &ClientStep) -> String {
    let client = step.before;
    let call = match client.state {
        State::Queued => "no call",
        _ if pdu.header.call_number == client.number => "its call",
        _ => "another call",
    };
    let number = cancel::acknowledged_number(pdu.body, pdu.order);
    let what = match (number, client.own.cancel) {
        (None, _) => form_name(pdu),
        (_, None) => "CANCEL not armed",
        (Some(number), _) if number == client.own.cancel_number => "its number",
        _ => "another number",
    };
    format!("{call}, {what}")
}

/// The cases of a cancel_ack with the answers that they get.
fn ack_case_names() -> Vec<String> {
    let of_queued = ["no call, malformed: 13", "no call, CANCEL not armed: 13"];
    let of_all = [
        "its call, malformed: 14",
        "its call, CANCEL not armed: 15",
        "another call, malformed: 13",
        "another call, CANCEL not armed: 13",
    ];
    let of_active = [
        "its call, its number: 0",
        "its call, another number: 15",
        "another call, its number: 13",
        "another call, another number: 13",
    ];
    let mut names = Vec::new();
    for state in STATES {
        let cases = match state {
            State::Queued => of_queued.to_vec(),
            _ if state.is_active() => [of_all, of_active].concat(),
            _ => of_all.to_vec(),
        };
        let cases = cases.iter();
        names.extend(cases.map(|case| format!("client cancel_ack in {}: {case}", state.name())));
    }
    names
}

/// Whether a row of an active state leads out of these, so that CANCEL is disarmed; a cancel_ack
/// disarms it too.
fn disarms(row: &str) -> bool {
    let leads_out = [
        "put, complete",
        "to FAULT",
        "the count is 5",
        "the resends are 5",
        "CANCEL disarmed",
    ];
    leads_out.iter().any(|part| row.contains(part))
}

/// The rows in which CANCEL can be armed before, each with what becomes of it.
fn armed_row_names() -> Vec<String> {
    let mut rows: Vec<String> = TRANSMIT_ROWS.map(String::from).to_vec();
    for state in ACTIVE_STATES {
        let mut of_state = [&ACTIVE_ROWS[..], &CANCEL_ROWS[1..]].concat();
        if state == State::Dispatched {
            of_state.extend(DISPATCHED_ROWS);
        }
        if state.names(TimerKind::Wait) {
            of_state.extend(WAIT_ROWS);
        }
        let of_state = of_state.iter();
        rows.extend(of_state.map(|row| row.replace('@', state.name())));
    }
    let told = rows.iter().map(|row| {
        let what = if disarms(row) {
            "disarmed"
        } else {
            "stays armed"
        };
        format!("CANCEL {what} in the row: {row}")
    });
    told.collect()
}

/// What is told once.
const DETAILS: [&str; 17] = [
    "client length refused at cancel: PDU buffer",
    "client cancel: CANCEL armed with the number 0",
    "client cancel: the serial as it is",
    "client cancel: the numbers are used up",
    "client cancel: no active state",
    "client start: the cancel number forgotten",
    "client cancel_ack taken: accepts 0",
    "client cancel_ack taken: accepts 1",
    "client cancel_ack taken: number 0",
    "client late WAIT: not armed",
    "client late WAIT: another ticket",
    "client late WAIT: the ticket of another timer",
    "client late ACK: not armed",
    "client late ACK: another ticket",
    "client late CANCEL: not armed",
    "client late CANCEL: another ticket",
    "client late CANCEL: the ticket of another timer",
];

/// All that can be reached of the client's cancels, but for the rows.
pub fn names() -> Vec<String> {
    let mut names = DETAILS.map(String::from).to_vec();
    names.extend(sent_names("client", pdu_type::CANCEL));
    names.extend(malformed_names("client", pdu_type::CANCEL_ACK));
    names.extend(ack_case_names());
    names.extend(armed_row_names());
    names
}
