//! This implementation in the library's place, where one of the machines makes a mistake.

use crate::bench::library::Library;
use crate::codec::pdu::{read, Pdu};
use crate::door::invocation::{Invocation, Lent};
use crate::door::outcome::outcome;
use crate::door::pdu;
use crate::door::places::RecordBytes;
use crate::door::record_bytes::{decode, encode};
use crate::door::step::{invoke, part, Door};
use crate::records::client::ClientSide;
use crate::records::record::Record;
use crate::records::server::ServerSide;

/// What a call leaves, which a mistake changes.
pub struct Left<'a, 'b, S: Door> {
    pub invocation: &'a Invocation<'b, S>,
    pub before: &'a Record<S>,
    pub after: Record<S>,
    /// What is given back.
    pub number: u64,
    pub pdu: &'a mut [u8],
}

/// A mistake of a machine.
pub type Mistake<S> = fn(&mut Left<S>);

impl<S: Door> Left<'_, '_, S> {
    pub fn is_done(&self) -> bool {
        self.answers(0)
    }

    pub fn answers(&self, answer: u64) -> bool {
        self.number & 255 == answer
    }

    /// The PDU that arrives, if it is of the type.
    pub fn arriving(&self, pdu_type: u8) -> Option<Pdu<'_>> {
        let Invocation::Arrive { datagram } = self.invocation else {
            return None;
        };
        let pdu = read(datagram).ok()?;
        (pdu.header.pdu_type == pdu_type).then_some(pdu)
    }
}

/// Both machines, each with its mistake; mostly one of them makes none.
pub struct Mistaken {
    pub client: Mistake<ClientSide>,
    pub server: Mistake<ServerSide>,
}

/// A call, with the mistake where the record is readable.
fn call<S: Door>(mistake: Mistake<S>, invocation: &Invocation<S>, lent: Lent) -> u64 {
    let Lent { record, slots, pdu } = lent;
    let before = readable::<S>(record);
    let again = Lent {
        record: &mut *record,
        slots,
        pdu: &mut *pdu,
    };
    let number = outcome(&invoke(invocation, again));
    let (Some(before), Some(after)) = (before, readable::<S>(record)) else {
        return number;
    };
    let mut left = Left {
        invocation,
        before: &before,
        after: after.clone(),
        number,
        pdu,
    };
    mistake(&mut left);
    if left.after != after {
        record.copy_from_slice(&encode(&left.after));
    }
    left.number
}

/// The record that the bytes stand for, if they stand for one.
fn readable<S: Door>(bytes: &[u8]) -> Option<Record<S>> {
    decode(<&RecordBytes>::try_from(bytes).ok()?)
}

impl Library for Mistaken {
    fn client(&mut self, invocation: &Invocation<ClientSide>, lent: Lent) -> u64 {
        call(self.client, invocation, lent)
    }

    fn server(&mut self, invocation: &Invocation<ServerSide>, lent: Lent) -> u64 {
        call(self.server, invocation, lent)
    }

    fn client_part(&mut self, number: u16, record: &[u8], slots: &[u8]) -> u64 {
        part::<ClientSide>(number, record, slots)
    }

    fn server_part(&mut self, number: u16, record: &[u8], slots: &[u8]) -> u64 {
        part::<ServerSide>(number, record, slots)
    }

    fn read(&mut self, datagram: &[u8], header: &mut [u8]) -> u64 {
        outcome(&pdu::read(datagram, header))
    }

    fn write(&mut self, header: &[u8], body: &[u8], lent: &mut [u8]) -> u64 {
        outcome(&pdu::write(header, body, lent))
    }
}
