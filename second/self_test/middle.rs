//! Messages of four fragments that are sent once more behind what is acknowledged: facts worked out
//! by hand from document 01. The cases are those that the reading of request 1 counts.

use crate::bench::message::message;
use crate::codec::pdu::{pdu_type, BODY_LIMIT};
use crate::machines::refusal::Refusal;
use crate::records::client::State;
use crate::records::server::State as ServerState;
use crate::self_test::all::check;
use crate::self_test::client_stage::{self, arrive, dispatched, CLIENT};
use crate::self_test::server_stage::{self, ping, replied, request, timer, NUMBER, SERVER};
use crate::self_test::side::{done, is_silent, sends, Outcome, Sender, TICKETS};
use crate::self_test::stage::Stage;

/// The length of a message of four fragments.
const LENGTH: u32 = 5_000;

/// What has a reply in HELD sent once more: the timer, the request and a ping.
const WANTED_AGAIN: [fn(&mut Stage) -> Outcome; 3] = [
    |stage| {
        let ticket = stage.server.own.resend.unwrap_or(0);
        timer(stage, ticket)
    },
    |stage| request(stage, NUMBER, 0, 0, b"run"),
    |stage| ping(stage, NUMBER),
];

pub fn self_test() -> Result<(), &'static str> {
    resend()?;
    for again in WANTED_AGAIN {
        replay(again)?;
    }
    Ok(())
}

/// One of the four fragments as it is sent.
fn fragment(sender: &Sender, pdu_type: u8, serial: u8, number: u16) -> Vec<u8> {
    let message = message(LENGTH as usize, 9);
    let parts: Vec<&[u8]> = message.chunks(BODY_LIMIT).collect();
    let flags = if number == 3 { 6 } else { 4 };
    sender.bytes(pdu_type, flags, serial, number, parts[usize::from(number)])
}

fn client_fack(stage: &mut Stage, number: u16) -> Outcome {
    arrive(stage, pdu_type::FACK, 0, number, &[0; 16])
}

fn nocall(stage: &mut Stage) -> Outcome {
    arrive(stage, pdu_type::NOCALL, 0, 0, &[])
}

/// Whether a client is sending, so many fragments being sent and acknowledged.
fn is_sending(stage: &Stage, sent: u8, acknowledged: u8) -> bool {
    let client = &stage.client;
    let counts = (client.outgoing.sent, client.outgoing.acknowledged);
    (client.state, counts) == (State::SendFrags, (sent, acknowledged))
}

/// The client sends its next fragment, with the serial given.
fn transmits(stage: &mut Stage, serial: u8, number: u16) -> bool {
    let sent = client_stage::transmit(stage);
    let pdu = fragment(&CLIENT, pdu_type::REQUEST, serial, number);
    sends(stage, &sent, &pdu, None)
}

/// Case 4. A nocall sends the client back to the first unacknowledged fragment, or to 0 where all
/// are acknowledged.
fn resend() -> Result<(), &'static str> {
    let mut stage = dispatched(false, LENGTH);
    check(client_fack(&mut stage, 1) == done(), "a fack of two")?;
    check(
        client_fack(&mut stage, 65_535) == done() && stage.client.outgoing.acknowledged == 2,
        "an older fack leaves what is acknowledged",
    )?;
    check(
        nocall(&mut stage) == done() && is_sending(&stage, 2, 2),
        "case 4: again from fragment 2",
    )?;
    check(
        transmits(&mut stage, 5, 2) && transmits(&mut stage, 6, 3),
        "case 4: the third and the fourth fragment once more",
    )?;
    check(
        (stage.client.state, stage.client.own.wait) == (State::Dispatched, Some(TICKETS + 2)),
        "case 4: all sent once more",
    )?;
    check(
        client_fack(&mut stage, 4) == Err(Refusal::Contradiction),
        "a fack of five of four",
    )?;
    check(client_fack(&mut stage, 3) == done(), "a fack of all")?;
    check(
        nocall(&mut stage) == done() && is_sending(&stage, 0, 4) && stage.client.resends == 2,
        "case 4: again from 0, where all are acknowledged",
    )?;
    check(
        transmits(&mut stage, 7, 0),
        "case 4: the first fragment once more",
    )
}

/// Whether a server is sending its reply, the same with RESEND disarmed.
fn is_replying(stage: &Stage, sent: u8, acknowledged: u8) -> bool {
    let server = &stage.server;
    let counts = (server.outgoing.sent, server.outgoing.acknowledged);
    (server.state, counts, server.own.resend) == (ServerState::Replying, (sent, acknowledged), None)
}

/// The server sends its next fragment, with the serial given.
fn replies(stage: &mut Stage, serial: u8, number: u16) -> bool {
    let sent = server_stage::transmit(stage);
    let pdu = fragment(&SERVER, pdu_type::RESPONSE, serial, number);
    sends(stage, &sent, &pdu, None)
}

/// Case 5. The same of a reply that is held, whatever has it sent once more; this itself sends
/// nothing.
fn replay(again: fn(&mut Stage) -> Outcome) -> Result<(), &'static str> {
    let mut stage = replied(false, LENGTH);
    let fack = server_stage::fack(&mut stage, NUMBER, 1);
    check(
        fack == done() && stage.server.outgoing.acknowledged == 2,
        "a fack of two of a reply",
    )?;
    let outcome = again(&mut stage);
    check(
        outcome == done() && is_silent(&stage) && is_replying(&stage, 2, 2),
        "case 5: a replay from fragment 2",
    )?;
    check(
        replies(&mut stage, 5, 2) && replies(&mut stage, 6, 3),
        "case 5: the third and the fourth fragment once more",
    )?;
    check(
        (stage.server.state, stage.server.own.resend) == (ServerState::HeldData, Some(TICKETS + 2)),
        "case 5: HELD once more",
    )?;
    let fack = server_stage::fack(&mut stage, NUMBER, 3);
    let outcome = again(&mut stage);
    check(
        (fack, outcome) == (done(), done()) && is_replying(&stage, 0, 4),
        "case 5: a replay from 0, where all are acknowledged",
    )?;
    check(
        replies(&mut stage, 7, 0),
        "case 5: the first fragment once more",
    )
}
