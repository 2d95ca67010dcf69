//! Checks of the server against facts worked out by hand from document 01.

use crate::bench::message::message;
use crate::codec::pdu::{flags1, pdu_type, BODY_LIMIT};
use crate::machines::effect::Notice;
use crate::machines::refusal::Refusal;
use crate::records::server::{ServerSide, State};
use crate::self_test::all::check;
use crate::self_test::server_stage::{
    ack, arrive_header, fack, fresh, ping, reply, request, running, transmit, NUMBER, SERVER,
};
use crate::self_test::side::{done, fack_body, header_of, is_silent, only, sends, TICKETS};
use crate::self_test::stage::Stage;

const WHOLE: u8 = 0;
const FIRST: u8 = flags1::FRAGMENT;
const LAST: u8 = flags1::FRAGMENT | flags1::LAST_FRAGMENT;

pub fn self_test() -> Result<(), &'static str> {
    fresh_server()?;
    whole_request()?;
    two_fragment_request()?;
    two_fragment_reply()
}

fn fresh_server() -> Result<(), &'static str> {
    let mut stage = fresh();
    let answer = ping(&mut stage, NUMBER);
    let pdu = SERVER.bytes(pdu_type::NOCALL, 0, 0, 0, &[]);
    check(
        sends(&stage, &answer, &pdu, None),
        "a ping of a fresh server",
    )?;
    check(
        ack(&mut stage, 0) == Err(Refusal::NoRow) && fack(&mut stage, 0, 0) == Err(Refusal::NoRow),
        "an ack or fack of a fresh server",
    )?;
    let header = header_of(pdu_type::FACK, 0, 0, 0);
    let malformed = arrive_header(&mut stage, &header, &[0; 17]);
    check(
        malformed == Err(Refusal::MalformedBody),
        "a malformed fack of a fresh server",
    )?;
    check(
        stage.server == fresh().server,
        "a fresh server that stays as it is",
    )
}

/// A request of one fragment is dispatched at once, without a fack.
fn whole_request() -> Result<(), &'static str> {
    let mut stage = fresh();
    let begun = request(&mut stage, NUMBER, WHOLE, 0, b"all");
    check(
        begun == only(Notice::Dispatch) && is_silent(&stage),
        "a whole request",
    )?;
    check(
        stage.server.state == State::Running && stage.hand_up::<ServerSide>(0) == b"all",
        "a whole request dispatched",
    )?;
    let again = request(&mut stage, NUMBER, WHOLE, 0, b"ALL");
    let pdu = SERVER.bytes(pdu_type::WORKING, 0, 0, 0, &[]);
    check(
        sends(&stage, &again, &pdu, None) && stage.hand_up::<ServerSide>(0) == b"all",
        "the request again while it runs",
    )?;
    let asked = ping(&mut stage, NUMBER);
    check(sends(&stage, &asked, &pdu, None), "a ping while it runs")
}

/// A request of two fragments, of which the second comes first. Each of them is facked.
fn two_fragment_request() -> Result<(), &'static str> {
    let mut stage = fresh();
    let second = request(&mut stage, NUMBER, LAST, 1, b"end");
    let pdu = SERVER.bytes(pdu_type::FACK, 0, 0, 65_535, &fack_body(258, 2));
    check(
        sends(&stage, &second, &pdu, None) && stage.server.state == State::Collect,
        "the second fragment of a request",
    )?;
    check(
        stage.hand_up::<ServerSide>(1).is_empty(),
        "no part behind a gap",
    )?;
    let again = request(&mut stage, NUMBER, LAST, 1, b"END");
    check(again == Err(Refusal::AlreadyHeld), "the second again")?;
    let third = request(&mut stage, NUMBER, FIRST, 2, b"no");
    check(third == Err(Refusal::Contradiction), "one above the last")?;
    let other = request(&mut stage, NUMBER, FIRST | flags1::IDEMPOTENT, 0, b"no");
    check(other == Err(Refusal::Contradiction), "another mark")?;
    let asked = ping(&mut stage, NUMBER);
    let pdu = SERVER.bytes(pdu_type::NOCALL, 0, 0, 0, &[]);
    check(sends(&stage, &asked, &pdu, None), "a ping in COLLECT")?;
    let first = request(&mut stage, NUMBER, FIRST, 0, b"beginning");
    let pdu = SERVER.bytes(pdu_type::FACK, 0, 0, 1, &fack_body(258, 0));
    check(
        sends(&stage, &first, &pdu, Some(Notice::Dispatch)),
        "the first fragment of a request",
    )?;
    check(
        stage.hand_up::<ServerSide>(0) == b"beginning" && stage.hand_up::<ServerSide>(1) == b"end",
        "the request's parts handed up",
    )
}

fn two_fragment_reply() -> Result<(), &'static str> {
    let mut stage = running(false);
    check(reply(&mut stage, 1_393) == done(), "a reply")?;
    let message = message(1_393, 9);
    let first = transmit(&mut stage);
    let pdu = SERVER.bytes(pdu_type::RESPONSE, FIRST, 1, 0, &message[..BODY_LIMIT]);
    check(sends(&stage, &first, &pdu, None), "first of two fragments")?;
    let request_again = request(&mut stage, NUMBER, WHOLE, 0, b"run");
    check(
        request_again == Err(Refusal::AlreadyHeld)
            && ping(&mut stage, NUMBER) == Err(Refusal::AlreadyHeld),
        "a request and a ping in REPLYING",
    )?;
    let second = transmit(&mut stage);
    let pdu = SERVER.bytes(pdu_type::RESPONSE, LAST, 2, 1, &message[BODY_LIMIT..]);
    check(
        sends(&stage, &second, &pdu, None),
        "second of two fragments",
    )?;
    check(
        (stage.server.state, stage.server.own.resend) == (State::HeldData, Some(TICKETS + 1)),
        "RESEND armed",
    )?;
    replay_and_ack(&mut stage, &message[BODY_LIMIT..])
}

/// A reply of two fragments is held; the first of them is acknowledged.
fn replay_and_ack(stage: &mut Stage, second: &[u8]) -> Result<(), &'static str> {
    check(fack(stage, NUMBER, 0) == done(), "a fack of one")?;
    check(
        fack(stage, NUMBER, 2) == Err(Refusal::Contradiction),
        "a fack of three of two",
    )?;
    let asked = ping(stage, NUMBER);
    let server = &stage.server;
    check(
        asked == done() && (server.state, server.outgoing.sent) == (State::Replying, 1),
        "a replay from the first unacknowledged",
    )?;
    let again = transmit(stage);
    let pdu = SERVER.bytes(pdu_type::RESPONSE, LAST, 3, 1, second);
    check(sends(stage, &again, &pdu, None), "the second once more")?;
    check(
        ack(stage, NUMBER) == done() && stage.server.state == State::IdleSpent,
        "an ack",
    )?;
    let spent = request(stage, NUMBER, WHOLE, 0, b"run");
    check(spent == Err(Refusal::OldCall), "a spent request")
}
