//! A server on a stage, brought to where a check begins.

use crate::codec::pdu::{flags1, pdu_type, Header};
use crate::machines::event::Event;
use crate::records::server::{Answer, Resend, Server, ServerSide};
use crate::self_test::side::{
    arrive_at, header_of, transmit_of, Outcome, Sender, ACTIVITY, TICKETS,
};
use crate::self_test::stage::Stage;

pub const NUMBER: u32 = 7;

/// The server of these checks, as it answers call 7.
pub const SERVER: Sender = Sender {
    boot: [1, 2, 3, 4],
    number: NUMBER as u8,
};

/// The body of a fack without masks.
const FACK_BODY: [u8; 16] = [0; 16];

/// A server with boot value 0x04030201 that has had no call.
pub fn fresh() -> Stage {
    let mut stage = Stage::new();
    stage.server = Server::fresh(ACTIVITY, 0x0403_0201, TICKETS);
    stage
}

pub fn arrive_header(stage: &mut Stage, header: &Header, body: &[u8]) -> Outcome {
    arrive_at::<ServerSide>(stage, header, body)
}

pub fn request(stage: &mut Stage, number: u32, flags1: u8, fragment: u16, body: &[u8]) -> Outcome {
    let header = header_of(pdu_type::REQUEST, number, flags1, fragment);
    arrive_header(stage, &header, body)
}

pub fn ping(stage: &mut Stage, number: u32) -> Outcome {
    arrive_header(stage, &header_of(pdu_type::PING, number, 255, 9), b"any")
}

pub fn ack(stage: &mut Stage, number: u32) -> Outcome {
    arrive_header(stage, &header_of(pdu_type::ACK, number, 255, 9), b"any")
}

pub fn fack(stage: &mut Stage, number: u32, fragment: u16) -> Outcome {
    let header = header_of(pdu_type::FACK, number, 255, fragment);
    arrive_header(stage, &header, &FACK_BODY)
}

/// A server that runs call 7, whose request is one fragment.
pub fn running(idempotent: bool) -> Stage {
    let mut stage = fresh();
    let mark = if idempotent { flags1::IDEMPOTENT } else { 0 };
    // A request that is refused fails the checks of what comes behind it.
    let _ = request(&mut stage, NUMBER, mark, 0, b"run");
    stage
}

pub fn transmit(stage: &mut Stage) -> Outcome {
    transmit_of::<ServerSide>(stage)
}

pub fn reply(stage: &mut Stage, length: u32) -> Outcome {
    stage.event::<ServerSide>(&Event::Own(Answer::Reply { length }))
}

pub fn fault(stage: &mut Stage) -> Outcome {
    let status = 0x1c01_0003;
    stage.event::<ServerSide>(&Event::Own(Answer::Fault { status }))
}

pub fn timer(stage: &mut Stage, ticket: u64) -> Outcome {
    let kind = Resend;
    stage.event::<ServerSide>(&Event::Timer { kind, ticket })
}

/// The same, with a reply of so many bytes sent.
pub fn replied(idempotent: bool, length: u32) -> Stage {
    let mut stage = running(idempotent);
    // What is refused fails the checks behind it.
    let _ = reply(&mut stage, length);
    for _ in 0..stage.server.outgoing.fragments {
        let _ = transmit(&mut stage);
    }
    stage
}
