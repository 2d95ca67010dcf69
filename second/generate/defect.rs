//! What can be wrong with a datagram for the reader.

use crate::codec::pdu::{offset, ByteOrder, HEADER_LENGTH};
use crate::generate::datagram::u16_bytes;
use crate::generate::random::Random;
use crate::generate::turn::pairs_below;

/// Something wrong with a datagram.
#[derive(Clone, Copy)]
pub enum Defect {
    CutTo(usize),
    Version(u8),
    Type(u8),
    Representation([u8; 3]),
    Authentication(u8),
    /// The body length says one byte more than there is.
    LengthMore,
    LengthLess,
    /// The body length in the other byte order.
    LengthTurned,
    LengthSays(u16),
    /// A body over the limit, with a body length that matches.
    BodyOf(usize),
}

/// The defects by the answer that they lead to: 3 to 8.
pub const DEFECTS: [&[Defect]; 6] = [
    &[
        Defect::CutTo(0),
        Defect::CutTo(1),
        Defect::CutTo(2),
        Defect::CutTo(40),
        Defect::CutTo(76),
        Defect::CutTo(78),
        Defect::CutTo(79),
    ],
    &[
        Defect::Version(0x14),
        Defect::Version(0),
        Defect::Version(3),
        Defect::Version(5),
        Defect::Version(0x84),
        Defect::Version(0xff),
    ],
    &[
        Defect::Type(11),
        Defect::Type(12),
        Defect::Type(0x20),
        Defect::Type(0x22),
        Defect::Type(0x80),
        Defect::Type(255),
    ],
    &[
        Defect::Representation([32, 0, 0]),
        Defect::Representation([16, 1, 0]),
        Defect::Representation([16, 0, 1]),
        Defect::Representation([0, 1, 0]),
        Defect::Representation([0, 0, 1]),
        Defect::Representation([1, 0, 0]),
        Defect::Representation([17, 0, 0]),
        Defect::Representation([0, 0, 16]),
        Defect::Representation([255, 255, 255]),
    ],
    &[
        Defect::Authentication(1),
        Defect::Authentication(4),
        Defect::Authentication(0x80),
        Defect::Authentication(255),
    ],
    &[
        Defect::LengthMore,
        Defect::LengthLess,
        Defect::LengthTurned,
        Defect::LengthSays(1_392),
        Defect::LengthSays(1_393),
        Defect::LengthSays(65_456),
        Defect::LengthSays(65_535),
        Defect::BodyOf(1_393),
        Defect::BodyOf(1_968),
        // In two bytes its length is 4.
        Defect::BodyOf(65_540),
    ],
];

/// A set of the defect numbers given, by turns: none of them, each alone, and all pairs.
pub fn defect_set(numbers: &[u8], turn: usize) -> Vec<u8> {
    let singles = numbers.len();
    let pairs = pairs_below(singles);
    match turn % (1 + singles + pairs.len()) {
        0 => vec![],
        single if single <= singles => vec![numbers[single - 1]],
        pair => {
            let (low, high) = pairs[pair - 1 - singles];
            vec![numbers[low], numbers[high]]
        }
    }
}

/// A good datagram that is about to be damaged.
pub struct Draft {
    pub order: ByteOrder,
    pub bytes: Vec<u8>,
}

impl Draft {
    pub fn apply(&mut self, defect: Defect, random: &mut Random) {
        match defect {
            Defect::CutTo(length) => self.bytes.truncate(length),
            Defect::Version(version) => self.put(offset::VERSION, &[version]),
            Defect::Type(pdu_type) => self.put(offset::TYPE, &[pdu_type]),
            Defect::Representation(bytes) => self.put(offset::REPRESENTATION, &bytes),
            Defect::Authentication(byte) => self.put(offset::AUTHENTICATION, &[byte]),
            Defect::LengthMore => self.put_body_length(self.body_length().wrapping_add(1)),
            Defect::LengthLess => self.put_body_length(self.body_length().wrapping_sub(1)),
            Defect::LengthTurned => self.put_body_length(self.body_length().swap_bytes()),
            Defect::LengthSays(length) => self.put_body_length(length),
            Defect::BodyOf(length) => {
                self.bytes.truncate(HEADER_LENGTH);
                self.bytes.extend(random.bytes(length));
                self.put_body_length(length as u16);
            }
        }
    }

    /// The length of the body that is there.
    fn body_length(&self) -> u16 {
        self.bytes.len().saturating_sub(HEADER_LENGTH) as u16
    }

    pub fn put_body_length(&mut self, length: u16) {
        self.put(offset::BODY_LENGTH, &u16_bytes(length, self.order));
    }

    /// Bytes behind the datagram's end are left out.
    pub fn put(&mut self, at: usize, bytes: &[u8]) {
        for (place, byte) in self.bytes.iter_mut().skip(at).zip(bytes) {
            *place = *byte;
        }
    }
}
