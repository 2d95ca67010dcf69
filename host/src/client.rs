//! The client: the console's side of an activity.

use crate::door;
use crate::memory::{message_length, Memory};
use crate::{Outcome, Refusal, FRAGMENTS};

/// One client of one activity. It owns what is lent: record, slot buffer, PDU buffer and the request that is out. It
/// cannot be copied: a record that is restored from an earlier copy is not the last one.
pub struct Client {
    memory: Memory,
}

/// What is called, beside the request's bytes.
#[derive(Clone, Copy, Debug, PartialEq, Eq)]
pub struct Call {
    /// Whether it may be executed more than once.
    pub idempotent: bool,
    /// The object, a UUID in its little-endian form.
    pub object: [u8; 16],
    /// The interface, a UUID in its little-endian form.
    pub interface: [u8; 16],
    /// The interface's version.
    pub version: u32,
    /// The operation's number in the interface.
    pub operation: u16,
}

/// Where a client stands.
#[derive(Clone, Copy, Debug, PartialEq, Eq)]
pub enum ClientState {
    /// No call yet.
    Queued,
    /// The request is being sent: call [`Client::transmit`].
    SendFrags,
    /// The request is sent, nothing has come yet.
    Dispatched,
    /// Some of the reply is there.
    ReceiveFrags,
    /// The reply is there, its ack is not sent yet.
    AckPending,
    /// The call is over.
    Complete,
    /// The call has failed.
    Fault,
    /// A state of a later library.
    Other(u8),
}

/// A client's timers.
#[derive(Clone, Copy, Debug, PartialEq, Eq)]
pub enum ClientTimer {
    /// How long to wait for the server.
    Wait,
    /// When to send the ack.
    Ack,
    /// How long to wait for the server's cancel_ack.
    Cancel,
}

impl Client {
    /// A fresh client of an activity that was never used before, with a ticket counter to start from (0 for the first
    /// record of a host).
    pub fn new(activity: &[u8; 16], tickets: u64) -> Result<Client, Refusal> {
        let mut memory = Memory::new();
        match Refusal::of(door::client_fresh(&mut memory.record, activity, tickets) as u8) {
            None => Ok(Client { memory }),
            Some(refusal) => Err(refusal),
        }
    }

    /// Starts a call with this request, which is kept for every transmit. Refused while a call is out.
    pub fn start(&mut self, call: &Call, request: &[u8]) -> Outcome<'_> {
        let result = door::client_start(
            &mut self.memory.record,
            u8::from(call.idempotent),
            &call.object,
            &call.interface,
            call.version,
            call.operation,
            message_length(request.len()),
        );
        self.memory.keep(result, request);
        self.memory.outcome(result)
    }

    /// Sends the next fragment of the request, in [`ClientState::SendFrags`].
    pub fn transmit(&mut self) -> Outcome<'_> {
        let Memory { record, pdu, message, .. } = &mut self.memory;
        let result = door::client_transmit(record, message, pdu);
        self.memory.outcome(result)
    }

    /// Takes a datagram that came, whole.
    pub fn arrive(&mut self, datagram: &[u8]) -> Outcome<'_> {
        let Memory { record, slots, pdu, .. } = &mut self.memory;
        let result = door::client_arrive(record, datagram, slots, pdu);
        self.memory.outcome(result)
    }

    /// Asks the server to end the call that is out: sends a cancel, and arms [`ClientTimer::Cancel`] if it is not
    /// armed. The call goes on until a notice tells its end, and may be executed all the same. Refused where no call
    /// is out.
    pub fn cancel(&mut self) -> Outcome<'_> {
        let Memory { record, pdu, .. } = &mut self.memory;
        let result = door::client_cancel(record, pdu);
        self.memory.outcome(result)
    }

    /// Takes a timer that ran out, with the ticket that it was started with.
    pub fn timer(&mut self, kind: ClientTimer, ticket: u64) -> Outcome<'_> {
        let Memory { record, pdu, .. } = &mut self.memory;
        let kind = match kind {
            ClientTimer::Wait => 1,
            ClientTimer::Ack => 2,
            ClientTimer::Cancel => 4,
        };
        let result = door::client_timer(record, kind, ticket, pdu);
        self.memory.outcome(result)
    }

    /// Fragment `number` of the reply where it lies, if it is handed up; else nothing.
    pub fn part(&self, number: u16) -> &[u8] {
        let Memory { record, slots, .. } = &self.memory;
        self.memory.part(number, door::client_part(record, number, slots))
    }

    /// The reply as far as it is handed up: its contiguous parts, joined.
    pub fn message(&self) -> Vec<u8> {
        (0..FRAGMENTS).flat_map(|number| self.part(number)).copied().collect()
    }

    /// Where the client stands.
    pub fn state(&self) -> ClientState {
        match self.memory.record[0] {
            0 => ClientState::Queued,
            1 => ClientState::SendFrags,
            2 => ClientState::Dispatched,
            3 => ClientState::ReceiveFrags,
            4 => ClientState::AckPending,
            5 => ClientState::Complete,
            6 => ClientState::Fault,
            other => ClientState::Other(other),
        }
    }

    /// The ticket that a timer is armed with, if it is.
    pub fn armed(&self, kind: ClientTimer) -> Option<u64> {
        match kind {
            ClientTimer::Wait => self.memory.ticket(40, 64),
            ClientTimer::Ack => self.memory.ticket(48, 65),
            ClientTimer::Cancel => self.memory.ticket(56, 66),
        }
    }

    /// The number of the call last started; 0 also where there was none.
    pub fn number(&self) -> u32 {
        self.memory.word(16)
    }
}
