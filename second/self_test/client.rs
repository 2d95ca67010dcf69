//! Checks of the client against facts worked out by hand from document 01.

use crate::bench::message::message;
use crate::codec::pdu::{pdu_type, BODY_LIMIT};
use crate::machines::effect::Notice;
use crate::machines::refusal::Refusal;
use crate::records::client::{ClientSide, State, TimerKind};
use crate::records::outgoing::fragment_count;
use crate::self_test::all::check;
use crate::self_test::client_stage::{arrive, dispatched, started, timer, transmit, CLIENT};
use crate::self_test::side::{fack_body, is_silent, only, sends, TICKETS};

pub fn self_test() -> Result<(), &'static str> {
    let counts = [0, 1_392, 1_393, 44_544, 44_545].map(fragment_count);
    check(
        counts == [Some(1), Some(1), Some(2), Some(32), None],
        "fragment counts",
    )?;
    two_fragment_request()?;
    two_fragment_reply()?;
    one_fragment_reply()?;
    timers_and_limits()
}

/// A request of two fragments.
fn two_fragment_request() -> Result<(), &'static str> {
    let mut stage = started(false, 1_393);
    let client = &stage.client;
    check(
        (client.state, client.number, client.outgoing.fragments) == (State::SendFrags, 0, 2),
        "start of two fragments",
    )?;
    let message = message(1_393, 9);
    let first = transmit(&mut stage);
    let pdu = CLIENT.bytes(pdu_type::REQUEST, 4, 1, 0, &message[..BODY_LIMIT]);
    check(sends(&stage, &first, &pdu, None), "first of two fragments")?;
    let second = transmit(&mut stage);
    let pdu = CLIENT.bytes(pdu_type::REQUEST, 6, 2, 1, &message[BODY_LIMIT..]);
    check(
        sends(&stage, &second, &pdu, None),
        "second of two fragments",
    )?;
    check(stage.client.own.wait == Some(TICKETS + 1), "WAIT armed")
}

/// A reply of two fragments, of which the second comes first. Each of them is facked.
fn two_fragment_reply() -> Result<(), &'static str> {
    let mut stage = dispatched(false, 1_393);
    let second = arrive(&mut stage, pdu_type::RESPONSE, 6, 1, b"end");
    let pdu = CLIENT.bytes(pdu_type::FACK, 0, 2, 65_535, &fack_body(258, 2));
    check(
        sends(&stage, &second, &pdu, Some(Notice::Count(0))),
        "a response of the second",
    )?;
    check(
        stage.hand_up::<ClientSide>(1).is_empty(),
        "no part behind a gap",
    )?;
    let again = arrive(&mut stage, pdu_type::RESPONSE, 6, 1, b"END");
    check(again == Err(Refusal::AlreadyHeld), "the second again")?;
    let first = arrive(&mut stage, pdu_type::RESPONSE, 4, 0, b"beginning");
    let pdu = CLIENT.bytes(pdu_type::FACK, 0, 2, 1, &fack_body(258, 0));
    check(
        sends(&stage, &first, &pdu, Some(Notice::Last)),
        "a response of the first",
    )?;
    check(
        stage.hand_up::<ClientSide>(0) == b"beginning" && stage.hand_up::<ClientSide>(1) == b"end",
        "parts handed up",
    )?;
    let client = &stage.client;
    check(
        (client.state, client.own.wait, client.own.ack)
            == (State::AckPending, None, Some(TICKETS + 3)),
        "only ACK armed",
    )?;
    let late = timer(&mut stage, TimerKind::Ack, TICKETS + 2);
    check(late == Err(Refusal::LateTimer), "a late ACK timer")?;
    let ack = timer(&mut stage, TimerKind::Ack, TICKETS + 3);
    let pdu = CLIENT.bytes(pdu_type::ACK, 0, 2, 0, &[]);
    check(sends(&stage, &ack, &pdu, None), "the ack sent")?;
    check(stage.client.state == State::Complete, "the call complete")
}

/// A reply of one fragment completes the call in one step, without a fack.
fn one_fragment_reply() -> Result<(), &'static str> {
    let mut stage = dispatched(true, 0);
    let reply = arrive(&mut stage, pdu_type::RESPONSE, 0, 0, b"whole");
    check(
        reply == only(Notice::Last) && is_silent(&stage),
        "a whole reply",
    )?;
    check(
        (stage.client.state, stage.client.tickets.counter) == (State::Complete, TICKETS + 1),
        "an idempotent call complete",
    )
}

fn timers_and_limits() -> Result<(), &'static str> {
    let mut stage = dispatched(false, 3);
    for pings in 1..=5 {
        let late = timer(&mut stage, TimerKind::Wait, TICKETS + u64::from(pings) - 1);
        check(late == Err(Refusal::LateTimer), "a late WAIT timer")?;
        let ping = timer(&mut stage, TimerKind::Wait, TICKETS + u64::from(pings));
        let pdu = CLIENT.bytes(pdu_type::PING, 0, 1 + pings, 0, &[]);
        check(sends(&stage, &ping, &pdu, None), "a ping")?;
    }
    let sixth = timer(&mut stage, TimerKind::Wait, TICKETS + 6);
    check(sixth == only(Notice::Cause(1)), "the sixth WAIT timer")?;
    let client = &stage.client;
    check(
        (client.state, client.own.wait, client.own.waits) == (State::Fault, None, 5),
        "a call without an answer",
    )?;
    let mut stage = dispatched(false, 3);
    stage.client.tickets.counter = u64::MAX;
    let working = arrive(&mut stage, pdu_type::WORKING, 0, 7, &[1]);
    check(
        working == Err(Refusal::NoTicket),
        "working without a ticket",
    )?;
    let fault = arrive(&mut stage, pdu_type::FAULT, 0, 7, &[0, 0, 1, 2, 3]);
    check(fault == only(Notice::Fault(258)), "a fault's status")
}
