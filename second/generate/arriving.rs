//! PDUs that arrive at either side, and what their bodies can be.

use crate::codec::pdu::{flags1, pdu_type, ByteOrder, Header, Uuid, BODY_LIMIT, HEADER_LENGTH};
use crate::generate::cancel::cancel_body;
use crate::generate::datagram::{datagram, u16_bytes};
use crate::generate::defect::{Defect, Draft, DEFECTS};
use crate::generate::random::Random;
use crate::records::record::Record;
use crate::records::side::Side;

/// The fragment bits of a request or response that is a whole message, one of several fragments, or
/// the last of them.
pub const WHOLE: u8 = 0;
pub const ONE_OF_SEVERAL: u8 = flags1::FRAGMENT;
pub const LAST_OF_SEVERAL: u8 = flags1::FRAGMENT | flags1::LAST_FRAGMENT;

/// The fragment bits of one of so many fragments.
pub fn bits_of(number: u16, count: u16) -> u8 {
    match (count, number + 1 == count) {
        (1, _) => WHOLE,
        (_, false) => ONE_OF_SEVERAL,
        (_, true) => LAST_OF_SEVERAL,
    }
}

pub const IMPOSSIBLE_NUMBERS: [u16; 5] = [32, 33, 255, 256, 65_535];

/// These, and 1, 31 and one that is held without the fragment bit.
pub const IMPOSSIBLE_WAYS: usize = IMPOSSIBLE_NUMBERS.len() + 3;

/// The ways in which the body of a fack is malformed.
pub const FACK_WAYS: usize = 7;

pub struct Arriving {
    pub header: Header,
    pub order: ByteOrder,
    pub body: Vec<u8>,
}

impl Arriving {
    pub fn datagram(&self) -> Vec<u8> {
        datagram(&self.header, self.order, &self.body)
    }

    /// The datagram with the defects that the reader sees. A cut comes last.
    pub fn damaged(&self, defects: &[u8], random: &mut Random) -> Vec<u8> {
        let mut draft = Draft {
            order: self.order,
            bytes: self.datagram(),
        };
        for number in (3..=8).rev().filter(|number| defects.contains(number)) {
            let defect = match number {
                // The authentication byte is the last but one.
                3 if defects.contains(&7) => Defect::CutTo(HEADER_LENGTH - 1),
                3 if random.percent(50) => Defect::CutTo(HEADER_LENGTH - 1),
                _ => random.pick(DEFECTS[usize::from(number) - 3]),
            };
            draft.apply(defect, random);
        }
        draft.bytes
    }

    /// A PDU of a call with a body of the type; what is not judged is anything.
    fn of_call(pdu_type: u8, activity: Uuid, number: u32, random: &mut Random) -> Arriving {
        let order = random.pick(&[ByteOrder::Little, ByteOrder::Big]);
        let mut header = random.header(pdu_type);
        header.activity = activity;
        header.call_number = number;
        let body = match pdu_type {
            pdu_type::FAULT | pdu_type::REJECT => status_body(random),
            pdu_type::FACK => fack_body(order, random),
            pdu_type::CANCEL | pdu_type::CANCEL_ACK => {
                let cancel_number = random.field_u32();
                cancel_body(pdu_type, cancel_number, order, random)
            }
            _ => short_body(random),
        };
        Arriving {
            header,
            order,
            body,
        }
    }

    /// A PDU of the record's call with a body of the type; what is not judged is anything.
    pub fn of_type<S: Side>(pdu_type: u8, record: &Record<S>, random: &mut Random) -> Arriving {
        Arriving::of_call(pdu_type, record.activity, record.number, random)
    }

    /// A fack that mostly fits what is out.
    pub fn fack<S: Side>(record: &Record<S>, random: &mut Random) -> Arriving {
        let count = u16::from(record.outgoing.fragments);
        let acknowledged = u16::from(record.outgoing.acknowledged);
        let number = random.pick(&[
            65_535,
            0,
            acknowledged.wrapping_sub(1),
            acknowledged,
            count.wrapping_sub(1),
            count.wrapping_sub(1),
            count,
        ]);
        Arriving::fack_of(number, record, random)
    }

    /// A fack with the number given.
    pub fn fack_of<S: Side>(number: u16, record: &Record<S>, random: &mut Random) -> Arriving {
        let mut arriving = Arriving::of_type(pdu_type::FACK, record, random);
        arriving.header.fragment_number = number;
        arriving
    }

    /// A fack of more than is out.
    pub fn fack_of_more<S: Side>(record: &Record<S>, random: &mut Random) -> Arriving {
        let count = u16::from(record.outgoing.fragments);
        let number = random.pick(&[count, count + 1, 32, 255, 65_534]);
        Arriving::fack_of(number, record, random)
    }

    /// A fack whose body is malformed in one of so many ways.
    pub fn malformed_fack<S: Side>(
        way: usize,
        record: &Record<S>,
        random: &mut Random,
    ) -> Arriving {
        let count = u16::from(record.outgoing.fragments);
        let number = random.pick(&[65_535, 0, count]);
        let mut arriving = Arriving::fack_of(number, record, random);
        arriving.damage_fack(way, random);
        arriving
    }

    /// The same PDU from a sender of the byte order given.
    pub fn in_order(mut self, order: ByteOrder) -> Arriving {
        if self.order != order {
            self.turn_body();
        }
        self.order = order;
        self
    }

    /// What is judged in the body lies in the other byte order.
    fn turn_body(&mut self) {
        match self.header.pdu_type {
            // The word count.
            pdu_type::FACK => self.body.swap(14, 15),
            pdu_type::CANCEL | pdu_type::CANCEL_ACK => {
                self.body.chunks_mut(4).for_each(<[u8]>::reverse);
            }
            _ => {}
        }
    }

    /// The same PDU with the fragment number and the fragment bits given.
    pub fn with_fragment(mut self, number: u16, fragment_bits: u8) -> Arriving {
        self.header.flags1 = self.header.flags1 & !LAST_OF_SEVERAL | fragment_bits;
        self.header.fragment_number = number;
        self
    }

    pub fn change_number(&mut self, random: &mut Random) {
        let number = self.header.call_number;
        self.header.call_number = random.pick(&[
            number.wrapping_sub(1),
            number.wrapping_add(1),
            number ^ 1 << 16,
            number ^ 1 << 31,
        ]);
    }

    /// The body of a fack becomes malformed in one of so many ways.
    fn damage_fack(&mut self, way: usize, random: &mut Random) {
        let body = &mut self.body;
        match way {
            0 => body[0] = random.pick(&[1, 4, 255]),
            1 => body.push(0),
            2 => {
                body.pop();
            }
            3 => body.truncate(random.pick(&[0, 1, 14, 15])),
            // The word count says more or less than there is.
            4 => body[14] ^= 1,
            5 => body[15] ^= 1,
            _ => body.extend([0; 4]),
        }
    }
}

fn short_body(random: &mut Random) -> Vec<u8> {
    let length = match random.between(0, 99) {
        0..=3 => random.pick(&[BODY_LIMIT - 1, BODY_LIMIT]),
        4..=16 => random.pick(&[0, 1]),
        _ => random.between(2, 12),
    };
    random.bytes(length)
}

fn status_body(random: &mut Random) -> Vec<u8> {
    let length = random.pick(&[4, 4, 4, 5, 8, 24]);
    random.bytes(length)
}

/// The body of a fack with any number of masks; only version and word count mean something here.
fn fack_body(order: ByteOrder, random: &mut Random) -> Vec<u8> {
    let words = random.pick(&[0, 1, 1, 1, 2, 8]);
    let mut body = random.bytes(16 + 4 * usize::from(words));
    body[0] = 0;
    body[14..16].copy_from_slice(&u16_bytes(words, order));
    body
}
