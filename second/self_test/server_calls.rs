//! Checks of the server's calls behind their first answer, against facts worked out by hand from
//! document 01.

use crate::codec::pdu::{flags1, pdu_type};
use crate::machines::effect::Notice;
use crate::machines::refusal::Refusal;
use crate::records::server::{ServerSide, State};
use crate::self_test::all::check;
use crate::self_test::server_stage::{
    ack, arrive_header, fack, fault, ping, replied, reply, request, running, timer, transmit,
    NUMBER, SERVER,
};
use crate::self_test::side::{done, header_of, only, sends, TICKETS};

const WHOLE: u8 = 0;
const FIRST: u8 = flags1::FRAGMENT;

pub fn self_test() -> Result<(), &'static str> {
    resend_to_the_limit()?;
    held_fault()?;
    idempotent_call()?;
    newer_calls()
}

fn resend_to_the_limit() -> Result<(), &'static str> {
    let mut stage = replied(false, 0);
    for count in 1..=5 {
        let ticket = TICKETS + count;
        let late = timer(&mut stage, ticket - 1);
        check(late == Err(Refusal::LateTimer), "a late RESEND timer")?;
        let again = timer(&mut stage, ticket);
        let server = &stage.server;
        check(
            again == done() && (server.state, server.own.resend) == (State::Replying, None),
            "a RESEND timer with data",
        )?;
        let disarmed = timer(&mut stage, ticket);
        check(
            disarmed == Err(Refusal::NoRow),
            "a RESEND timer in REPLYING",
        )?;
        let sent = transmit(&mut stage);
        let pdu = SERVER.bytes(pdu_type::RESPONSE, 0, 1 + count as u8, 0, &[]);
        check(sends(&stage, &sent, &pdu, None), "the reply once more")?;
    }
    let sixth = timer(&mut stage, TICKETS + 6);
    let server = &stage.server;
    check(
        sixth == done()
            && (server.state, server.own.resend, server.resends) == (State::IdleSpent, None, 5),
        "the sixth RESEND timer",
    )
}

fn held_fault() -> Result<(), &'static str> {
    let mut stage = running(false);
    let pdu = SERVER.bytes(pdu_type::FAULT, 0, 0, 0, &[3, 0, 1, 0x1c]);
    let first = fault(&mut stage);
    check(sends(&stage, &first, &pdu, None), "a fault")?;
    check(stage.server.own.resend == Some(TICKETS + 1), "a fault held")?;
    let asked = ping(&mut stage, NUMBER);
    check(
        sends(&stage, &asked, &pdu, None) && stage.server.own.resend == Some(TICKETS + 1),
        "a fault sent again, the timer untouched",
    )?;
    let resent = timer(&mut stage, TICKETS + 1);
    check(
        sends(&stage, &resent, &pdu, None) && stage.server.own.resend == Some(TICKETS + 2),
        "a fault sent again, the timer armed afresh",
    )?;
    check(
        fack(&mut stage, NUMBER, 65_535) == done()
            && fack(&mut stage, NUMBER, 0) == Err(Refusal::Contradiction),
        "a fack of a fault",
    )?;
    check(
        ack(&mut stage, NUMBER) == done() && stage.server.state == State::IdleSpent,
        "an ack of a fault",
    )
}

/// An idempotent call runs again after a reply of one fragment, and not after one of two.
fn idempotent_call() -> Result<(), &'static str> {
    let mut stage = replied(true, 1_392);
    check(
        (stage.server.state, stage.server.own.resend) == (State::IdleRepeatable, None),
        "IDLE repeatable",
    )?;
    let unmarked = request(&mut stage, NUMBER, WHOLE, 0, b"run");
    check(unmarked == Err(Refusal::OldCall), "the mark cleared")?;
    let mut other = header_of(pdu_type::REQUEST, NUMBER, flags1::IDEMPOTENT, 0);
    other.operation += 1;
    let other = arrive_header(&mut stage, &other, b"run");
    check(other == Err(Refusal::Contradiction), "another operation")?;
    let again = request(&mut stage, NUMBER, flags1::IDEMPOTENT, 0, b"again");
    check(
        again == only(Notice::Dispatch) && stage.hand_up::<ServerSide>(0) == b"again",
        "the call once more",
    )?;
    check(
        stage.server.outgoing.serial == 0 && reply(&mut stage, 1_393) == done(),
        "the serial from 0",
    )?;
    check(
        transmit(&mut stage).is_ok() && transmit(&mut stage).is_ok(),
        "a reply of two fragments",
    )?;
    check(stage.server.state == State::HeldData, "HELD")?;
    check(
        ack(&mut stage, NUMBER) == Err(Refusal::NoRow),
        "an ack of an idempotent call",
    )?;
    let held = request(&mut stage, NUMBER, flags1::IDEMPOTENT, 0, b"again");
    check(
        held == done() && stage.server.state == State::Replying,
        "the reply once more",
    )
}

fn newer_calls() -> Result<(), &'static str> {
    let mut stage = running(false);
    let newer = request(&mut stage, NUMBER + 1, WHOLE, 0, b"next");
    check(newer == Err(Refusal::NoRow), "a newer request in RUNNING")?;
    let older = request(&mut stage, NUMBER - 1, WHOLE, 0, b"past");
    check(older == Err(Refusal::OldCall), "an older request")?;
    let mut asked = header_of(pdu_type::PING, NUMBER + 1, 0, 0);
    asked.object = *b"some other uuids";
    let answer = arrive_header(&mut stage, &asked, &[]);
    let echoed = &stage.pdu[8..24] == b"some other uuids" && stage.pdu[64] == 8;
    check(answer.is_ok() && echoed, "a nocall echoes the ping")?;
    let mut stage = replied(false, 1_393);
    let begun = request(&mut stage, u32::MAX, FIRST | flags1::NO_FACK, 0, b"next");
    let server = &stage.server;
    check(
        begun == done() && (server.state, server.number) == (State::Collect, u32::MAX),
        "a newer request in HELD",
    )?;
    check(
        (
            server.own.resend,
            server.outgoing.fragments,
            server.outgoing.serial,
        ) == (None, 0, 0),
        "what a begin resets",
    )?;
    let maybe = request(&mut stage, u32::MAX, FIRST | flags1::MAYBE, 33, b"no");
    check(
        maybe == Err(Refusal::MaybeOrBroadcast),
        "a request with maybe",
    )
}
