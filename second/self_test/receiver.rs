//! A side to which a message comes, for the checks of facks that are meant of both sides alike.

use crate::codec::pdu::{flags1, pdu_type};
use crate::machines::effect::{Effect, Notice};
use crate::machines::refusal::Refusal;
use crate::records::client::ClientSide;
use crate::records::server::ServerSide;
use crate::self_test::client_stage::{dispatched, CLIENT};
use crate::self_test::server_stage::{fresh, NUMBER, SERVER};
use crate::self_test::side::{arrive_at, fack_body, header_of, is_silent, sends, Outcome, Sender};
use crate::self_test::stage::Stage;

/// The flags of one of several fragments, and of the last of them.
pub const ONE: u8 = flags1::FRAGMENT;
pub const LAST: u8 = flags1::FRAGMENT | flags1::LAST_FRAGMENT;

pub struct Receiver {
    pub stage: Stage,
    is_client: bool,
    /// Of the call.
    number: u32,
    idempotent: bool,
    /// Its own, which its facks carry.
    serial: u8,
}

/// What is held after a put: so many contiguous fragments of a message, or all of it.
#[derive(Clone, Copy)]
pub enum After {
    Count(u32),
    Whole,
}

use After::{Count, Whole};

/// Both sides, with calls that are idempotent and not.
pub const RECEIVERS: [fn() -> Receiver; 4] = [
    || Receiver::client(false),
    || Receiver::client(true),
    || Receiver::server(false),
    || Receiver::server(true),
];

impl Receiver {
    /// A client that waits for the reply to a request of two fragments.
    pub fn client(idempotent: bool) -> Receiver {
        Receiver {
            stage: dispatched(idempotent, 1_393),
            is_client: true,
            number: 0,
            idempotent,
            serial: 2,
        }
    }

    pub fn server(idempotent: bool) -> Receiver {
        Receiver {
            stage: fresh(),
            is_client: false,
            number: NUMBER,
            idempotent,
            serial: 0,
        }
    }

    /// A fragment arrives, with a serial that tells its number.
    fn arrive(&mut self, fragment: u16, flags: u8) -> Outcome {
        let pdu_type = match self.is_client {
            true => pdu_type::RESPONSE,
            false => pdu_type::REQUEST,
        };
        let mut header = header_of(pdu_type, self.number, flags, fragment);
        if self.idempotent && !self.is_client {
            header.flags1 |= flags1::IDEMPOTENT;
        }
        header.serial = serial_of(fragment);
        let body = fragment.to_le_bytes();
        match self.is_client {
            true => arrive_at::<ClientSide>(&mut self.stage, &header, &body),
            false => arrive_at::<ServerSide>(&mut self.stage, &header, &body),
        }
    }

    /// The notice of a put.
    fn notice(&self, after: After) -> Option<Notice> {
        match (self.is_client, after) {
            (true, Whole) => Some(Notice::Last),
            (true, Count(count)) => Some(Notice::Count(count)),
            (false, Whole) => Some(Notice::Dispatch),
            (false, Count(_)) => None,
        }
    }

    /// Whether a fragment that arrives gets, in the step of its notice, the fack with the number
    /// and the mask.
    pub fn facks(&mut self, (fragment, flags): (u16, u8), says: (u16, u32), after: After) -> bool {
        let outcome = self.arrive(fragment, flags);
        let (sender, marks): (Sender, u8) = match self.is_client {
            true if self.idempotent => (CLIENT, flags1::IDEMPOTENT),
            true => (CLIENT, 0),
            false => (SERVER, 0),
        };
        let body = fack_body(serial_of(fragment), says.1);
        let pdu = sender.bytes(pdu_type::FACK, marks, self.serial, says.0, &body);
        sends(&self.stage, &outcome, &pdu, self.notice(after))
    }

    /// Whether a fragment that arrives is put without a fack.
    pub fn puts(&mut self, (fragment, flags): (u16, u8), after: After) -> bool {
        let outcome = self.arrive(fragment, flags);
        let effect = Effect {
            pdu_length: None,
            notice: self.notice(after),
        };
        outcome == Ok(effect) && is_silent(&self.stage)
    }

    /// Whether a fragment that arrives is refused, nothing is sent and the records stay.
    pub fn refuses(&mut self, (fragment, flags): (u16, u8), refusal: Refusal) -> bool {
        let before = (self.stage.client.clone(), self.stage.server.clone());
        let outcome = self.arrive(fragment, flags);
        let is_same = (&self.stage.client, &self.stage.server) == (&before.0, &before.1);
        outcome == Err(refusal) && is_silent(&self.stage) && is_same
    }

    /// The bytes of a fragment that was put, as they are handed up.
    pub fn hands_up(&self, fragment: u8) -> bool {
        let part = match self.is_client {
            true => self.stage.hand_up::<ClientSide>(fragment),
            false => self.stage.hand_up::<ServerSide>(fragment),
        };
        part == u16::from(fragment).to_le_bytes()
    }

    /// The side's own serial becomes another.
    pub fn set_serial(&mut self, serial: u8) {
        self.serial = serial;
        match self.is_client {
            true => self.stage.client.outgoing.serial = u16::from(serial),
            false => self.stage.server.outgoing.serial = u16::from(serial),
        }
    }

    /// Whether the serial in its record is what it was.
    pub fn keeps_serial(&self) -> bool {
        let serial = match self.is_client {
            true => self.stage.client.outgoing.serial,
            false => self.stage.server.outgoing.serial,
        };
        serial == u16::from(self.serial)
    }
}

/// The serial of a fragment that arrives.
fn serial_of(fragment: u16) -> u16 {
    258 + fragment
}
