//! The message that is out: how far it is sent and acknowledged.

use crate::codec::pdu::{flags1, BODY_LIMIT};
use crate::records::incoming::SLOT_BUFFER_LENGTH;

/// A message is at most as long as what the slots can take.
pub const MESSAGE_LIMIT: usize = SLOT_BUFFER_LENGTH;

#[derive(Clone, Debug, PartialEq, Eq)]
pub struct Outgoing {
    pub length: u32,
    /// The fragment count, 0 where no message is out.
    pub fragments: u8,
    pub sent: u8,
    pub acknowledged: u8,
    pub serial: u16,
}

/// The fragment count of a message; an empty one is one empty fragment. None for a message over
/// the limit.
pub fn fragment_count(length: u32) -> Option<u8> {
    let length = length as usize;
    let count = length.div_ceil(BODY_LIMIT).max(1);
    (length <= MESSAGE_LIMIT).then_some(count as u8)
}

/// The count that a fack acknowledges: its number + 1, where 65535 counts as 0.
pub fn acknowledged_by(fack_number: u16) -> u16 {
    fack_number.wrapping_add(1)
}

impl Outgoing {
    pub fn none() -> Outgoing {
        Outgoing {
            length: 0,
            fragments: 0,
            sent: 0,
            acknowledged: 0,
            serial: 0,
        }
    }

    /// A message of which nothing is sent, with the serial of a new call.
    pub fn of_length(length: u32) -> Outgoing {
        Outgoing {
            length,
            fragments: fragment_count(length).unwrap_or(0),
            ..Outgoing::none()
        }
    }

    /// Another message takes the place of what was out; the serial goes on.
    pub fn replace(&mut self, length: u32) {
        *self = Outgoing {
            serial: self.serial,
            ..Outgoing::of_length(length)
        };
    }

    /// Whether a message that is lent is over the limit, or another than the one being sent.
    pub fn is_lent_wrong(&self, length: usize, is_being_sent: bool) -> bool {
        length > MESSAGE_LIMIT || is_being_sent && length != self.length as usize
    }

    pub fn count_is_the_lengths(&self) -> bool {
        fragment_count(self.length) == Some(self.fragments)
    }

    pub fn next_is_the_last(&self) -> bool {
        u16::from(self.sent) + 1 == u16::from(self.fragments)
    }

    /// The fragment bits of the next fragment.
    pub fn next_flags(&self) -> u8 {
        match (self.fragments, self.next_is_the_last()) {
            (1, _) => 0,
            (_, false) => flags1::FRAGMENT,
            (_, true) => flags1::FRAGMENT | flags1::LAST_FRAGMENT,
        }
    }

    pub fn next_fragment<'a>(&self, message: &'a [u8]) -> &'a [u8] {
        let begin = usize::from(self.sent) * BODY_LIMIT;
        let end = message.len().min(begin + BODY_LIMIT);
        &message[begin..end]
    }

    pub fn raise_serial(&mut self) {
        self.serial = self.serial.wrapping_add(1);
    }

    /// True of a fack that acknowledges more fragments than there are.
    pub fn contradicts(&self, fack_number: u16) -> bool {
        acknowledged_by(fack_number) > u16::from(self.fragments)
    }

    pub fn acknowledge(&mut self, fack_number: u16) {
        self.acknowledged = self.acknowledged.max(acknowledged_by(fack_number) as u8);
    }

    /// Back to the first unacknowledged fragment, or to 0 if there is none.
    pub fn rewind(&mut self) {
        self.sent = match self.acknowledged {
            all if all == self.fragments => 0,
            some => some,
        };
    }
}
