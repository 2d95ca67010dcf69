//! A client and a server with their buffers, on which a check has events take place.

use crate::bench::memory::{PDU_FILL, SLOTS_FILL};
use crate::codec::pdu::PDU_LIMIT;
use crate::machines::effect::Effect;
use crate::machines::event::Event;
use crate::machines::machine::Machine;
use crate::machines::refusal::Refusal;
use crate::records::client::{Client, ClientSide};
use crate::records::incoming::SLOT_BUFFER_LENGTH;
use crate::records::record::Record;
use crate::records::server::{Server, ServerSide};

/// The two sides with their slots, and the PDU buffer that both are lent.
pub struct Stage {
    pub client: Client,
    client_slots: Vec<u8>,
    pub server: Server,
    server_slots: Vec<u8>,
    pub pdu: [u8; PDU_LIMIT],
}

impl Stage {
    /// Both records fresh, with nothing put.
    pub fn new() -> Stage {
        Stage {
            client: Client::fresh([0; 16], 0),
            client_slots: vec![SLOTS_FILL; SLOT_BUFFER_LENGTH],
            server: Server::fresh([0; 16], 0, 0),
            server_slots: vec![SLOTS_FILL; SLOT_BUFFER_LENGTH],
            pdu: [PDU_FILL; PDU_LIMIT],
        }
    }

    /// An event of a side takes place.
    pub fn event<S: OnStage>(&mut self, event: &Event<S>) -> Result<Effect, Refusal> {
        let mut pdu = [PDU_FILL; PDU_LIMIT];
        let (record, slots) = S::place(self);
        let result = record.take(event, slots, &mut pdu);
        self.pdu = pdu;
        result
    }

    /// What a side hands up of a fragment.
    pub fn hand_up<S: OnStage>(&self, number: u8) -> &[u8] {
        S::record(self).hand_up(number, S::slots(self))
    }
}

/// A side as it stands on a stage.
pub trait OnStage: Machine {
    fn record(stage: &Stage) -> &Record<Self>;
    fn slots(stage: &Stage) -> &[u8];
    /// Both, to be changed.
    fn place(stage: &mut Stage) -> (&mut Record<Self>, &mut [u8]);
}

impl OnStage for ClientSide {
    fn record(stage: &Stage) -> &Client {
        &stage.client
    }

    fn slots(stage: &Stage) -> &[u8] {
        &stage.client_slots
    }

    fn place(stage: &mut Stage) -> (&mut Client, &mut [u8]) {
        (&mut stage.client, &mut stage.client_slots)
    }
}

impl OnStage for ServerSide {
    fn record(stage: &Stage) -> &Server {
        &stage.server
    }

    fn slots(stage: &Stage) -> &[u8] {
        &stage.server_slots
    }

    fn place(stage: &mut Stage) -> (&mut Server, &mut [u8]) {
        (&mut stage.server, &mut stage.server_slots)
    }
}
