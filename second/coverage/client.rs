//! What is counted of the client alone.

use crate::codec::pdu::{flags1, pdu_type, Pdu};
use crate::coverage::boundary::Boundary;
use crate::coverage::client_cancel::{self, cancel_row, count_armed_row};
use crate::coverage::counts::Counts;
use crate::coverage::side::{again_name, contradiction_name, count_put, type_name, Put};
use crate::coverage::step::{Counted, Step};
use crate::coverage::system::Calls;
use crate::machines::effect::Notice;
use crate::machines::event::Event;
use crate::records::client::{ClientEvent, ClientSide, State, TimerKind};
use crate::records::incoming::Fragment;
use crate::records::outgoing::Outgoing;
use crate::records::side::Side;

type ClientStep<'a> = Step<'a, ClientSide>;

impl Counted for ClientSide {
    fn own_event_name(event: &ClientEvent) -> &'static str {
        match event {
            ClientEvent::Start(_) => "start",
            ClientEvent::Cancel => "cancel",
        }
    }

    fn message_length(event: &ClientEvent) -> Option<u32> {
        match event {
            ClientEvent::Start(start) => Some(start.length),
            ClientEvent::Cancel => None,
        }
    }

    fn timer_name(kind: TimerKind) -> &'static str {
        kind.name()
    }

    fn sent_mark(flags1: u8) -> &'static str {
        match flags1 & flags1::IDEMPOTENT {
            0 => " of a call that is not idempotent",
            _ => " of a call that is idempotent",
        }
    }

    fn row_name(step: &ClientStep) -> String {
        let state = step.before.state.name();
        let at_limit = step.effect.notice.is_some();
        match step.event {
            Event::Timer {
                kind: TimerKind::Wait,
                ..
            } if at_limit => format!("client WAIT in {state}: the count is 5"),
            Event::Timer {
                kind: TimerKind::Cancel,
                ..
            } => format!("client CANCEL in {state}: to FAULT"),
            Event::Timer { kind, .. } => format!("client {} in {state}: sends", kind.name()),
            Event::Own(ClientEvent::Start(_)) => format!("client start in {state}"),
            Event::Own(ClientEvent::Cancel) => cancel_row(step),
            _ => transmit_row(step),
        }
    }

    fn arrive_row(pdu: &Pdu, step: &ClientStep) -> String {
        let what = match pdu.header.pdu_type {
            pdu_type::RESPONSE => response_outcome(step),
            pdu_type::FACK if step.after == step.before => "acknowledged stays",
            pdu_type::FACK => "acknowledged is raised",
            pdu_type::NOCALL if step.effect.notice.is_some() => "the resends are 5",
            pdu_type::NOCALL => again_name(&step.before.outgoing),
            pdu_type::WORKING => "WAIT armed afresh",
            pdu_type::CANCEL_ACK => "CANCEL disarmed",
            _ => "to FAULT",
        };
        let kind = type_name(pdu.header.pdu_type);
        format!("client {kind} in {}: {what}", step.before.state.name())
    }

    fn count_in_system(step: &ClientStep, calls: &mut Calls, counts: &mut Counts) {
        let number = step.after.number;
        match step.event {
            Event::Own(ClientEvent::Start(start)) => {
                calls.started(number, start.call.idempotent, counts);
            }
            Event::Own(ClientEvent::Cancel) => calls.cancelled(number, counts),
            _ => {}
        }
        if (step.before.state, step.after.state) == (State::Dispatched, State::SendFrags)
            && step.after.outgoing.sent > 0
        {
            calls.resumed(number, "resend");
        }
        match step.effect.notice {
            Some(Notice::Cause(cause)) if is_acknowledged_in_part(&step.after.outgoing) => {
                calls.given_up_in_part(number, cause, counts);
            }
            _ => {}
        }
        calls.noticed(number, step.effect.notice, counts);
    }

    fn count_own(step: &ClientStep, pdu: Option<&Pdu>, counts: &mut Counts) {
        let is_start = matches!(step.event, Event::Own(ClientEvent::Start(_)));
        if is_start && step.answer == 0 && step.after.number == u32::MAX {
            counts.add_name(&Boundary::LastCallNumber.name(&ClientSide::WORDS));
        }
        if let Some(pdu) = pdu {
            count_pdu(pdu, step, counts);
        }
        client_cancel::count(step, pdu, counts);
    }

    fn count_row(step: &ClientStep, row: &str, counts: &mut Counts) {
        count_armed_row(step, row, counts);
    }
}

fn is_acknowledged_in_part(outgoing: &Outgoing) -> bool {
    (1..outgoing.fragments).contains(&outgoing.acknowledged)
}

fn transmit_row(step: &ClientStep) -> String {
    let fragment = match (step.before.outgoing.fragments, step.after.own.wait) {
        (1, _) => "the only fragment",
        (_, Some(_)) => "the last fragment",
        (_, None) => "not the last fragment",
    };
    format!("client transmit: {fragment}")
}

fn response_outcome(step: &ClientStep) -> &'static str {
    let sends_fack = step.effect.pdu_length.is_some();
    match (step.effect.notice, step.after.own.ack, sends_fack) {
        (Some(Notice::Last), Some(_), true) => "put, complete, ACK armed, fack",
        (Some(Notice::Last), Some(_), false) => "put, complete, ACK armed, no fack",
        (Some(Notice::Last), None, true) => "put, complete, idempotent, fack",
        (Some(Notice::Last), None, false) => "put, complete, idempotent, no fack",
        (_, _, true) => "put, not complete, fack",
        (_, _, false) => "put, not complete, no fack",
    }
}

fn count_pdu(pdu: &Pdu, step: &ClientStep, counts: &mut Counts) {
    match (pdu.header.pdu_type, step.answer) {
        (pdu_type::RESPONSE, 0) => {
            let put = Put {
                words: ClientSide::WORDS,
                before: &step.before.incoming,
                after: &step.after.incoming,
            };
            count_put(&put, pdu, &step.effect, counts);
        }
        (pdu_type::RESPONSE, 17) => {
            let fragment = Fragment::of(&pdu.header);
            if let Some(what) = contradiction_name(&step.before.incoming, fragment) {
                counts.add(format_args!("client response contradicts: {what}"));
            }
        }
        (kind @ (pdu_type::FAULT | pdu_type::REJECT), 14) => {
            let (kind, length) = (type_name(kind), pdu.body.len());
            counts.add(format_args!("client {kind} malformed: {length} bytes"));
        }
        _ => {}
    }
}
