//! Bodies of cancel and cancel_ack, well formed and malformed.

use crate::codec::pdu::{pdu_type, ByteOrder, BODY_LIMIT};
use crate::generate::arriving::Arriving;
use crate::generate::datagram::u32_bytes;
use crate::generate::random::Random;
use crate::records::record::Record;
use crate::records::side::Side;

/// Lengths that neither body has, beside which each has the other's. Two of them are a right one in
/// a single byte.
const OTHER_LENGTHS: [usize; 10] = [0, 4, 7, 9, 11, 13, 16, 264, 268, BODY_LIMIT];

/// Third words that are neither 0 nor 1. One of them is 1 in the other byte order.
pub const THIRD_WORDS: [u32; 6] = [2, 256, 257, 65_536, 16_777_216, u32::MAX];

/// Another length, or one byte of the version that is not 0.
pub const CANCEL_WAYS: usize = OTHER_LENGTHS.len() + 1 + 4;

/// The same, or another third word.
pub const CANCEL_ACK_WAYS: usize = CANCEL_WAYS + THIRD_WORDS.len();

/// The lengths at which a body of the type is malformed.
pub fn wrong_lengths(pdu_type: u8) -> Vec<usize> {
    let other = match pdu_type {
        pdu_type::CANCEL => 12,
        _ => 8,
    };
    OTHER_LENGTHS.into_iter().chain([other]).collect()
}

/// The words as a sender of the byte order writes them.
fn body_of(words: &[u32], order: ByteOrder) -> Vec<u8> {
    let bytes = words.iter().map(|word| u32_bytes(*word, order));
    bytes.flatten().collect()
}

/// A well formed body of the type with the number given.
pub fn cancel_body(pdu_type: u8, number: u32, order: ByteOrder, random: &mut Random) -> Vec<u8> {
    match pdu_type {
        pdu_type::CANCEL => body_of(&[0, number], order),
        _ => body_of(&[0, number, random.pick(&[0, 1])], order),
    }
}

impl Arriving {
    /// A cancel of the record's call with the number given.
    pub fn cancel_of<S: Side>(number: u32, record: &Record<S>, random: &mut Random) -> Arriving {
        let cancel = Arriving::of_type(pdu_type::CANCEL, record, random);
        cancel.with_cancel_number(number, random)
    }

    /// A cancel_ack of the record's call with the number given.
    pub fn cancel_ack_of<S: Side>(
        number: u32,
        record: &Record<S>,
        random: &mut Random,
    ) -> Arriving {
        let ack = Arriving::of_type(pdu_type::CANCEL_ACK, record, random);
        ack.with_cancel_number(number, random)
    }

    fn with_cancel_number(mut self, number: u32, random: &mut Random) -> Arriving {
        self.body = cancel_body(self.header.pdu_type, number, self.order, random);
        self
    }

    /// The body of a cancel or cancel_ack becomes malformed in one of so many ways.
    pub fn damage_cancel(&mut self, way: usize, random: &mut Random) {
        let lengths = wrong_lengths(self.header.pdu_type);
        if let Some(length) = lengths.get(way) {
            self.body.resize(*length, 0);
            return;
        }
        let way = way - lengths.len();
        match way {
            0..=3 => self.body[way] = random.pick(&[1, 4, 128, 255]),
            _ => {
                let word = u32_bytes(THIRD_WORDS[way - 4], self.order);
                self.body[8..12].copy_from_slice(&word);
            }
        }
    }
}
