//! A client on a stage, brought to where a check begins.

use crate::machines::event::Event;
use crate::records::call::Call;
use crate::records::client::{Client, ClientEvent, ClientSide, Start, TimerKind};
use crate::self_test::side::{
    arrive_at, header_of, transmit_of, Outcome, Sender, ACTIVITY, INTERFACE, OBJECT, TICKETS,
};
use crate::self_test::stage::Stage;

/// The client of these checks, in its first call.
pub const CLIENT: Sender = Sender {
    boot: [0; 4],
    number: 0,
};

fn call(idempotent: bool) -> Call {
    Call {
        idempotent,
        object: OBJECT,
        interface: INTERFACE,
        version: 0x0102_0304,
        operation: 0x0506,
    }
}

/// A stage with a client that has started a call.
pub fn started(idempotent: bool, length: u32) -> Stage {
    let mut stage = Stage::new();
    stage.client = Client::fresh(ACTIVITY, TICKETS);
    // A start that is refused fails the checks of the state behind it.
    let _ = start(&mut stage, idempotent, length);
    stage
}

/// A call is started.
pub fn start(stage: &mut Stage, idempotent: bool, length: u32) -> Outcome {
    let call = call(idempotent);
    let start = ClientEvent::Start(Start { call, length });
    stage.event::<ClientSide>(&Event::Own(start))
}

/// The local cancel.
pub fn cancel(stage: &mut Stage) -> Outcome {
    stage.event::<ClientSide>(&Event::Own(ClientEvent::Cancel))
}

/// The same, with all of its message sent.
pub fn dispatched(idempotent: bool, length: u32) -> Stage {
    let mut stage = started(idempotent, length);
    for _ in 0..stage.client.outgoing.fragments {
        // One that is refused fails the checks behind it, like the start.
        let _ = transmit(&mut stage);
    }
    stage
}

pub fn transmit(stage: &mut Stage) -> Outcome {
    transmit_of::<ClientSide>(stage)
}

pub fn timer(stage: &mut Stage, kind: TimerKind, ticket: u64) -> Outcome {
    stage.event::<ClientSide>(&Event::Timer { kind, ticket })
}

/// A PDU of call 0 arrives.
pub fn arrive(stage: &mut Stage, pdu_type: u8, flags1: u8, fragment: u16, body: &[u8]) -> Outcome {
    let header = header_of(pdu_type, 0, flags1, fragment);
    arrive_at::<ClientSide>(stage, &header, body)
}
