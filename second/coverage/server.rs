//! What is counted of the server alone.

use crate::codec::pdu::{pdu_type, Pdu};
use crate::coverage::counts::Counts;
use crate::coverage::server_cancel::{self, cancel_outcome};
use crate::coverage::server_pdu::count_pdu;
use crate::coverage::side::{again_name, type_name};
use crate::coverage::step::{Counted, Step};
use crate::coverage::system::Calls;
use crate::coverage::system_names::mark_name;
use crate::machines::effect::Notice;
use crate::machines::event::Event;
use crate::machines::server_row::Age;
use crate::records::server::{Answer, Resend, Server, ServerSide, State};

pub type ServerStep<'a> = Step<'a, ServerSide>;

impl Counted for ServerSide {
    fn own_event_name(answer: &Answer) -> &'static str {
        match answer {
            Answer::Reply { .. } => "reply",
            Answer::Fault { .. } => "fault",
        }
    }

    fn message_length(answer: &Answer) -> Option<u32> {
        match answer {
            Answer::Reply { length } => Some(*length),
            Answer::Fault { .. } => None,
        }
    }

    fn timer_name(_: Resend) -> &'static str {
        "timer"
    }

    fn sent_mark(_: u8) -> &'static str {
        ""
    }

    fn row_name(step: &ServerStep) -> String {
        let mark = mark_name(step.before.call.idempotent);
        match step.event {
            Event::Timer { .. } => format!("server RESEND in {}", timer_outcome(step)),
            Event::Own(Answer::Reply { .. }) => "server reply".into(),
            Event::Own(Answer::Fault { .. }) => format!("server fault, {mark}"),
            _ => format!("server transmit: {}", sent_name(step, mark)),
        }
    }

    fn arrive_row(pdu: &Pdu, step: &ServerStep) -> String {
        let kind = type_name(pdu.header.pdu_type);
        let state = step.before.state;
        let is_newer = step.before.age(pdu.header.call_number) == Age::Newer;
        let what = match pdu.header.pdu_type {
            pdu_type::REQUEST if is_newer => format!("newer, {}", put_outcome(step)),
            pdu_type::PING if is_newer => "newer, sends nocall".into(),
            pdu_type::FACK if step.after == step.before => "acknowledged stays".into(),
            pdu_type::FACK => "acknowledged is raised".into(),
            pdu_type::ACK => "to IDLE spent".into(),
            pdu_type::CANCEL => cancel_outcome(step).into(),
            pdu_type::REQUEST => format!("equal, {}", equal_request_outcome(step)),
            _ if state == State::Running => "equal, sends working".into(),
            _ if state.is_held() => format!("equal, {}", replay_outcome(step.before)),
            _ => "equal, sends nocall".into(),
        };
        format!("server {kind} in {}: {what}", state.name())
    }

    fn count_in_system(step: &ServerStep, calls: &mut Calls, counts: &mut Counts) {
        let number = step.after.number;
        match (step.effect.notice, step.event) {
            (Some(Notice::Dispatch), _) => calls.dispatched(number, counts),
            (Some(Notice::Cancel), _) => {
                calls.cancel_noticed(number, step.after.own.cancel_number, counts);
            }
            (_, Event::Own(Answer::Fault { .. })) => calls.faulted(number, counts),
            _ => {}
        }
        if (step.before.state, step.after.state) == (State::HeldData, State::Replying)
            && step.after.outgoing.sent > 0
        {
            calls.resumed(number, "replay");
        }
    }

    fn count_own(step: &ServerStep, pdu: Option<&Pdu>, counts: &mut Counts) {
        if let Some(pdu) = pdu {
            count_pdu(pdu, step, counts);
            server_cancel::count(pdu, step, counts);
        }
    }

    fn count_row(_: &ServerStep, _: &str, _: &mut Counts) {}
}

fn sent_name(step: &ServerStep, mark: &str) -> String {
    match (step.before.outgoing.fragments, step.after.state) {
        (1, _) => format!("the only fragment, {mark}"),
        (_, State::Replying) => "not the last fragment".into(),
        _ => format!("the last fragment, {mark}"),
    }
}

fn timer_outcome(step: &ServerStep) -> String {
    let state = step.before.state.name();
    match step.after.state {
        State::IdleSpent => format!("{state}: the count is 5"),
        _ => format!("{state}: {}", replay_outcome(step.before)),
    }
}

fn replay_outcome(before: &Server) -> &'static str {
    match before.state {
        State::HeldFault => "sends the fault",
        _ => again_name(&before.outgoing),
    }
}

fn equal_request_outcome(step: &ServerStep) -> &'static str {
    match step.before.state {
        State::Running => "sends working",
        State::HeldData | State::HeldFault => replay_outcome(step.before),
        _ => put_outcome(step),
    }
}

fn put_outcome(step: &ServerStep) -> &'static str {
    let dispatches = step.effect.notice.is_some();
    match (dispatches, step.effect.pdu_length.is_some()) {
        (true, true) => "put, dispatch, fack",
        (true, false) => "put, dispatch, no fack",
        (false, true) => "put, not complete, fack",
        (false, false) => "put, not complete, no fack",
    }
}
