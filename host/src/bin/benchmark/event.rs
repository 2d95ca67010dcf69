//! The events, and the memory that they are lent.

use crate::side::Side;
use morphelai::{door, FRAGMENT_SIZE, HEADER_SIZE, MESSAGE_SIZE, PDU_SIZE, SLOTS_SIZE};

/// The timers by their kinds.
pub const WAIT: u8 = 1;
pub const ACK: u8 = 2;
pub const RESEND: u8 = 3;
pub const CANCEL: u8 = 4;

/// The object and the interface of every call, its version and its operation.
const UUID: [u8; 16] = [9; 16];
const VERSION: u32 = 1;
const OPERATION: u16 = 2;
/// The status of every fault.
const STATUS: u32 = 7;

/// The memory that events are lent beside the record.
pub struct Lent {
    pub slots: Vec<u8>,
    pub pdu: Vec<u8>,
    message: Vec<u8>,
    header: Vec<u8>,
}

/// One event with what is handed in. Lengths are in bytes.
pub enum Event {
    /// No event: what it costs to repeat one.
    Nothing,
    /// Makes a fresh record.
    Fresh,
    /// The client's start: idempotent or not, and the length of the request.
    Start { idempotent: bool, length: usize },
    /// The client's cancel.
    Cancel,
    /// The server's reply, of that length.
    Reply(usize),
    /// The server's fault.
    Fault,
    /// A transmit of a message of that length.
    Transmit(usize),
    /// A datagram comes; how much of the slot buffer is lent.
    Arrive { datagram: Vec<u8>, slots_length: usize },
    /// A timer runs out.
    Timer { kind: u8, ticket: u64 },
    /// Part 0 of what was received is asked for: it must be a whole fragment.
    Part,
    /// The reader alone; how much of the header buffer is lent.
    Read { datagram: Vec<u8>, header_length: usize },
    /// The writer alone, with a body of that length.
    Write { header: Vec<u8>, body_length: usize },
}

impl Lent {
    pub fn new() -> Lent {
        Lent {
            slots: vec![0; SLOTS_SIZE],
            pdu: vec![0; PDU_SIZE],
            message: vec![5; MESSAGE_SIZE],
            header: vec![0; HEADER_SIZE],
        }
    }
}

impl Event {
    /// The start of a call that is not idempotent.
    pub fn start(length: usize) -> Event {
        Event::Start { idempotent: false, length }
    }

    /// A datagram comes, and all buffers are lent as they must be.
    pub fn arrive(datagram: &[u8]) -> Event {
        Event::Arrive { datagram: datagram.to_vec(), slots_length: SLOTS_SIZE }
    }

    /// The reader alone, with the whole header buffer.
    pub fn read(datagram: &[u8]) -> Event {
        Event::Read { datagram: datagram.to_vec(), header_length: HEADER_SIZE }
    }

    /// Steps a record of that side. Gives the result as the door does.
    pub fn step(&self, side: &Side, record: &mut [u8], lent: &mut Lent) -> u64 {
        let Lent { slots, pdu, message, header } = lent;
        match self {
            Event::Nothing => 0,
            Event::Fresh => (side.fresh)(record, 0),
            Event::Start { idempotent, length } => {
                door::client_start(record, u8::from(*idempotent), &UUID, &UUID, VERSION, OPERATION, *length as u32)
            }
            Event::Cancel => door::client_cancel(record, pdu),
            Event::Reply(length) => door::server_reply(record, *length as u32),
            Event::Fault => door::server_fault(record, STATUS, pdu),
            Event::Transmit(length) => (side.transmit)(record, &message[..*length], pdu),
            Event::Arrive { datagram, slots_length } => {
                (side.arrive)(record, datagram, &mut slots[..*slots_length], pdu)
            }
            Event::Timer { kind, ticket } => (side.timer)(record, *kind, *ticket, pdu),
            Event::Part => u64::from((side.part)(record, 0, slots) != FRAGMENT_SIZE as u64),
            Event::Read { datagram, header_length } => door::read(datagram, &mut header[..*header_length]),
            Event::Write { header, body_length } => door::write(header, &message[..*body_length], pdu),
        }
    }
}
