//! The server: the controller's side of an activity.

use crate::door;
use crate::memory::{message_length, Memory};
use crate::{Outcome, Refusal, FRAGMENTS};

/// The kind of the timer RESEND.
const RESEND: u8 = 3;

/// One server of one activity. It owns what is lent: record, slot buffer, PDU buffer and the reply that is out. It
/// cannot be copied: a record that is restored from an earlier copy is not the last one.
pub struct Server {
    memory: Memory,
}

/// Where a server stands.
#[derive(Clone, Copy, Debug, PartialEq, Eq)]
pub enum ServerState {
    /// No call yet.
    IdleFresh,
    /// The call is over and is not executed again.
    IdleSpent,
    /// The call is over; it is idempotent and may be executed again.
    IdleRepeatable,
    /// Some of the request is there.
    Collect,
    /// The call was dispatched and waits for [`Server::reply`] or [`Server::fault`].
    Running,
    /// The reply is being sent: call [`Server::transmit`].
    Replying,
    /// The reply is sent, and kept to be sent again.
    HeldData,
    /// The fault is sent, and kept to be sent again.
    HeldFault,
    /// A state of a later library.
    Other(u8),
}

impl Server {
    /// A fresh server of an activity that this host never had before: the boot value that it sends, and a ticket
    /// counter to start from (0 for the first record of a host).
    pub fn new(activity: &[u8; 16], boot: u32, tickets: u64) -> Result<Server, Refusal> {
        let mut memory = Memory::new();
        match Refusal::of(door::server_fresh(&mut memory.record, activity, boot, tickets) as u8) {
            None => Ok(Server { memory }),
            Some(refusal) => Err(refusal),
        }
    }

    /// Takes a datagram that came, whole. At the notice dispatch the call is to be executed.
    pub fn arrive(&mut self, datagram: &[u8]) -> Outcome<'_> {
        let Memory { record, slots, pdu, .. } = &mut self.memory;
        let result = door::server_arrive(record, datagram, slots, pdu);
        self.memory.outcome(result)
    }

    /// Answers the running call with this reply, which is kept for every transmit.
    pub fn reply(&mut self, reply: &[u8]) -> Outcome<'_> {
        let result = door::server_reply(&mut self.memory.record, message_length(reply.len()));
        self.memory.keep(result, reply);
        self.memory.outcome(result)
    }

    /// Answers the running call with a fault of this status.
    pub fn fault(&mut self, status: u32) -> Outcome<'_> {
        let Memory { record, pdu, .. } = &mut self.memory;
        let result = door::server_fault(record, status, pdu);
        self.memory.outcome(result)
    }

    /// Sends the next fragment of the reply, in [`ServerState::Replying`].
    pub fn transmit(&mut self) -> Outcome<'_> {
        let Memory { record, pdu, message, .. } = &mut self.memory;
        let result = door::server_transmit(record, message, pdu);
        self.memory.outcome(result)
    }

    /// Takes the timer RESEND that ran out, with the ticket that it was started with.
    pub fn timer(&mut self, ticket: u64) -> Outcome<'_> {
        let Memory { record, pdu, .. } = &mut self.memory;
        let result = door::server_timer(record, RESEND, ticket, pdu);
        self.memory.outcome(result)
    }

    /// Fragment `number` of the request where it lies, if it is handed up; else nothing.
    pub fn part(&self, number: u16) -> &[u8] {
        let Memory { record, slots, .. } = &self.memory;
        self.memory.part(number, door::server_part(record, number, slots))
    }

    /// The request as far as it is handed up: its contiguous parts, joined. Take it before the call is answered.
    pub fn message(&self) -> Vec<u8> {
        (0..FRAGMENTS).flat_map(|number| self.part(number)).copied().collect()
    }

    /// Where the server stands.
    pub fn state(&self) -> ServerState {
        match self.memory.record[0] {
            0 => ServerState::IdleFresh,
            1 => ServerState::IdleSpent,
            2 => ServerState::IdleRepeatable,
            3 => ServerState::Collect,
            4 => ServerState::Running,
            5 => ServerState::Replying,
            6 => ServerState::HeldData,
            7 => ServerState::HeldFault,
            other => ServerState::Other(other),
        }
    }

    /// The ticket that RESEND is armed with, if it is.
    pub fn armed(&self) -> Option<u64> {
        self.memory.ticket(40, 64)
    }

    /// Which operation is called.
    pub fn operation(&self) -> u16 {
        self.memory.short(14)
    }

    /// The number of the call; 0 also where there was none.
    pub fn number(&self) -> u32 {
        self.memory.word(16)
    }

    /// The version of the interface that is called.
    pub fn version(&self) -> u32 {
        self.memory.word(20)
    }

    /// Which object is called, a UUID in its little-endian form.
    pub fn object(&self) -> [u8; 16] {
        self.memory.uuid(112)
    }

    /// Which interface is called, a UUID in its little-endian form.
    pub fn interface(&self) -> [u8; 16] {
        self.memory.uuid(128)
    }
}
