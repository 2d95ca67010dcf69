//! A client and a server on one stage, between which PDUs are carried by hand.

use crate::machines::event::Event;
use crate::self_test::client_stage::started;
use crate::self_test::server_stage::fresh;
use crate::self_test::side::Outcome;
use crate::self_test::stage::{OnStage, Stage};

/// What an event gives, and the PDU that it sends; an empty one if it sends none.
pub type Given = (Outcome, Vec<u8>);

/// A client that has started a call, and a fresh server.
pub fn joined(idempotent: bool, length: u32) -> Stage {
    let mut stage = started(idempotent, length);
    stage.server = fresh().server;
    stage
}

/// The same outcome with the PDU that was sent.
pub fn given(outcome: Outcome, stage: &Stage) -> Given {
    let length = match &outcome {
        Ok(effect) => effect.pdu_length.unwrap_or(0),
        Err(_) => 0,
    };
    (outcome, stage.pdu[..length].to_vec())
}

/// A datagram arrives at a side as it was sent.
pub fn deliver<S: OnStage>(stage: &mut Stage, datagram: &[u8]) -> Given {
    let outcome = stage.event::<S>(&Event::Arrive { datagram });
    given(outcome, stage)
}
