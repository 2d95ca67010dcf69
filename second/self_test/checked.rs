//! This implementation in the library's place, with every call checked: a refusal leaves all that
//! is lent, and a sound record stays sound and canonical.

use crate::bench::library::Library;
use crate::door::invocation::{Invocation, Lent};
use crate::door::outcome::outcome;
use crate::door::pdu;
use crate::door::places::RecordBytes;
use crate::door::record_bytes::{decode, encode, Stored};
use crate::door::step::{invoke, part, Door};
use crate::records::client::ClientSide;
use crate::records::server::ServerSide;
use std::cell::Cell;
use std::rc::Rc;

/// Where the first check that fails is told.
pub type Broken = Rc<Cell<Option<&'static str>>>;

#[derive(Default)]
pub struct Checked {
    pub broken: Broken,
}

/// All that is lent, as it is before a call.
type Kept = [Vec<u8>; 3];

fn kept(lent: &Lent) -> Kept {
    [lent.record.to_vec(), lent.slots.to_vec(), lent.pdu.to_vec()]
}

/// Whether bytes are those of a sound record, in canonical form.
fn is_canonical<S: Stored>(bytes: &[u8]) -> bool {
    let bytes = <&RecordBytes>::try_from(bytes);
    bytes.is_ok_and(|bytes| {
        decode::<S>(bytes).is_some_and(|record| record.is_sound() && encode(&record) == *bytes)
    })
}

impl Checked {
    fn check(&self, holds: bool, name: &'static str) {
        if !holds && self.broken.get().is_none() {
            self.broken.set(Some(name));
        }
    }

    fn call<S: Door>(&self, invocation: &Invocation<S>, lent: Lent) -> u64 {
        let before = kept(&lent);
        let again = Lent {
            record: &mut *lent.record,
            slots: &mut *lent.slots,
            pdu: &mut *lent.pdu,
        };
        let result = invoke(invocation, again);
        match &result {
            Ok(_) => self.check(
                is_canonical::<S>(lent.record),
                "an event leaves a sound record",
            ),
            Err(_) => self.check(kept(&lent) == before, "a refusal leaves all that is lent"),
        }
        outcome(&result)
    }
}

impl Library for Checked {
    fn client(&mut self, invocation: &Invocation<ClientSide>, lent: Lent) -> u64 {
        self.call(invocation, lent)
    }

    fn server(&mut self, invocation: &Invocation<ServerSide>, lent: Lent) -> u64 {
        self.call(invocation, lent)
    }

    fn client_part(&mut self, number: u16, record: &[u8], slots: &[u8]) -> u64 {
        part::<ClientSide>(number, record, slots)
    }

    fn server_part(&mut self, number: u16, record: &[u8], slots: &[u8]) -> u64 {
        part::<ServerSide>(number, record, slots)
    }

    fn read(&mut self, datagram: &[u8], header: &mut [u8]) -> u64 {
        let before = header.to_vec();
        let result = pdu::read(datagram, header);
        let is_left = result.is_ok() || header == before;
        self.check(is_left, "a refused read leaves the header");
        outcome(&result)
    }

    fn write(&mut self, header: &[u8], body: &[u8], lent: &mut [u8]) -> u64 {
        let before = lent.to_vec();
        let result = pdu::write(header, body, lent);
        let is_left = result.is_ok() || lent == before;
        self.check(is_left, "a refused write leaves the buffer");
        outcome(&result)
    }
}
