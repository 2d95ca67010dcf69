//! This implementation in the library's place, with one bit wrong after every call. The comparison
//! must find each of them.

use crate::bench::library::Library;
use crate::door::invocation::{Invocation, Lent};
use crate::door::outcome::outcome;
use crate::door::pdu;
use crate::door::step::{invoke, part, Door};
use crate::records::client::ClientSide;
use crate::records::server::ServerSide;

#[derive(Default)]
pub struct Spoiled {
    turn: usize,
}

impl Spoiled {
    /// Turns one bit of the number given back, or of what is lent.
    fn spoil(&mut self, number: u64, lent: [&mut [u8]; 3]) -> u64 {
        self.turn += 1;
        let bit = self.turn % 8;
        let [record, slots, pdu] = lent;
        let bytes = match self.turn % 4 {
            1 => record,
            2 => slots,
            3 => pdu,
            _ => &mut [],
        };
        if bytes.is_empty() {
            return number ^ 1 << (self.turn % 64);
        }
        let place = self.turn / 4 % bytes.len();
        bytes[place] ^= 1 << bit;
        number
    }

    fn call<S: Door>(&mut self, invocation: &Invocation<S>, lent: Lent) -> u64 {
        let Lent { record, slots, pdu } = lent;
        let again = Lent {
            record: &mut *record,
            slots: &mut *slots,
            pdu: &mut *pdu,
        };
        let number = outcome(&invoke(invocation, again));
        self.spoil(number, [record, slots, pdu])
    }
}

impl Library for Spoiled {
    fn client(&mut self, invocation: &Invocation<ClientSide>, lent: Lent) -> u64 {
        self.call(invocation, lent)
    }

    fn server(&mut self, invocation: &Invocation<ServerSide>, lent: Lent) -> u64 {
        self.call(invocation, lent)
    }

    fn client_part(&mut self, number: u16, record: &[u8], slots: &[u8]) -> u64 {
        part::<ClientSide>(number, record, slots) + 1
    }

    fn server_part(&mut self, number: u16, record: &[u8], slots: &[u8]) -> u64 {
        part::<ServerSide>(number, record, slots) ^ 1
    }

    fn read(&mut self, datagram: &[u8], header: &mut [u8]) -> u64 {
        let number = outcome(&pdu::read(datagram, header));
        self.spoil(number, [&mut [], &mut [], header])
    }

    fn write(&mut self, header: &[u8], body: &[u8], lent: &mut [u8]) -> u64 {
        let number = outcome(&pdu::write(header, body, lent));
        self.spoil(number, [&mut [], &mut [], lent])
    }
}
