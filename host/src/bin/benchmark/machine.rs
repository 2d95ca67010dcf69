//! Machines that are brought to where cases begin, and the PDUs that they send on the way.

use crate::case::{Case, Expected};
use crate::event::{Event, Lent, ACK, CANCEL};
use crate::side::{Side, CLIENT, SERVER};
use morphelai::{FRAGMENT_SIZE, RECORD_SIZE};
use std::cell::RefCell;

/// The ticket counter from which one more ticket can be given.
pub const ONE_TICKET_LEFT: u64 = u64::MAX - 1;

thread_local! {
    /// What is lent to the events that machines are prepared by.
    static LENT: RefCell<Lent> = RefCell::new(Lent::new());
}

/// A machine, and the PDU that its last event sent.
#[derive(Clone)]
pub struct Machine {
    side: &'static Side,
    pub record: Vec<u8>,
    pub sent: Vec<u8>,
}

impl Machine {
    /// A fresh client, with a ticket counter to start from.
    pub fn client(tickets: u64) -> Machine {
        Machine::fresh(&CLIENT, tickets)
    }

    /// A fresh server, with a ticket counter to start from.
    pub fn server(tickets: u64) -> Machine {
        Machine::fresh(&SERVER, tickets)
    }

    fn fresh(side: &'static Side, tickets: u64) -> Machine {
        let mut record = vec![0; RECORD_SIZE];
        assert_eq!((side.fresh)(&mut record, tickets), 0, "a fresh {} is refused", side.name);
        Machine { side, record, sent: Vec::new() }
    }

    /// The machine after an event, which must be done.
    pub fn after(mut self, event: Event) -> Machine {
        LENT.with_borrow_mut(|lent| {
            let result = event.step(self.side, &mut self.record, lent);
            assert_eq!(result as u8, 0, "what a {} is prepared by is refused", self.side.name);
            self.sent = lent.pdu[..usize::from((result >> 16) as u16)].to_vec();
        });
        self
    }

    /// The machine after a datagram that comes.
    pub fn arrived(self, datagram: &[u8]) -> Machine {
        self.after(Event::arrive(datagram))
    }

    /// The machine after its timer of that kind has run out so many times.
    pub fn timed(self, kind: u8, times: usize) -> Machine {
        (0..times).fold(self, |machine, _| {
            let event = machine.timer(kind);
            machine.after(event)
        })
    }

    /// The PDUs of a message of that length, which it has begun.
    fn transmitted(mut self, length: usize) -> Vec<Vec<u8>> {
        let transmit = |_| {
            self = self.clone().after(Event::Transmit(length));
            self.sent.clone()
        };
        (0..length.div_ceil(FRAGMENT_SIZE).max(1)).map(transmit).collect()
    }

    /// The machine with a byte of its record changed.
    pub fn changed(mut self, at: usize, byte: u8) -> Machine {
        self.record[at] = byte;
        self
    }

    /// The timer of that kind runs out with the ticket that it is armed with.
    pub fn timer(&self, kind: u8) -> Event {
        let first = match kind {
            ACK => 48,
            CANCEL => 56,
            _ => 40,
        };
        let mut ticket = [0; 8];
        ticket.copy_from_slice(&self.record[first..first + 8]);
        Event::Timer { kind, ticket: u64::from_le_bytes(ticket) }
    }

    /// The case of an event here.
    pub fn case(&self, name: &str, event: Event, expected: Expected) -> Case {
        let name = format!("{}-{name}", self.side.name);
        Case { name, expected, side: self.side, record: self.record.clone(), event }
    }

    /// The case of an event that is refused here.
    pub fn refused(&self, name: &str, event: Event, answer: u8) -> Case {
        self.case(&format!("{name}-refused-{answer}"), event, Expected::refused(answer))
    }

    /// The cases of an event on a record that is too short, and on bytes that are no record.
    pub fn misused(&self, name: &str, event: impl Fn() -> Event) -> [Case; 2] {
        let mut short = self.clone();
        short.record.pop();
        [short.refused(name, event(), 1), self.clone().changed(0, u8::MAX).refused(name, event(), 2)]
    }
}

/// A client that has started a call with a request of that length; its ticket counter started from there.
pub fn started(tickets: u64, length: usize) -> Machine {
    Machine::client(tickets).after(Event::start(length))
}

/// The PDUs of a request of that length.
pub fn requests(length: usize) -> Vec<Vec<u8>> {
    started(0, length).transmitted(length)
}

/// A client that has sent a request of one byte; its ticket counter started from there.
pub fn dispatched(tickets: u64) -> Machine {
    started(tickets, 1).after(Event::Transmit(1))
}

/// The same of an idempotent call.
pub fn dispatched_idempotent() -> Machine {
    Machine::client(0).after(Event::Start { idempotent: true, length: 1 }).after(Event::Transmit(1))
}

/// A server whose call runs, with a request of one byte; its ticket counter started from there.
pub fn running(tickets: u64) -> Machine {
    Machine::server(tickets).arrived(&requests(1)[0])
}

/// A server that has begun a reply of that length; its ticket counter started from there.
pub fn replying(tickets: u64, length: usize) -> Machine {
    running(tickets).after(Event::Reply(length))
}

/// The PDUs of a reply of that length.
pub fn responses(length: usize) -> Vec<Vec<u8>> {
    replying(0, length).transmitted(length)
}

/// The datagram with a byte changed.
pub fn changed(datagram: &[u8], at: usize, byte: u8) -> Vec<u8> {
    let mut datagram = datagram.to_vec();
    datagram[at] = byte;
    datagram
}

/// What the reader refuses, made of a PDU that has a body: each with its answer.
pub fn unreadable(pdu: &[u8]) -> [(Vec<u8>, u8); 6] {
    [
        (pdu[..79].to_vec(), 3),
        (changed(pdu, 0, 5), 4),
        (changed(pdu, 1, 11), 5),
        (changed(pdu, 4, 32), 6),
        (changed(pdu, 78, 1), 7),
        (pdu[..pdu.len() - 1].to_vec(), 8),
    ]
}
