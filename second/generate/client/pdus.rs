//! PDUs that arrive at a client, made to fit its record or to miss it in one point.

use crate::codec::pdu::pdu_type;
use crate::generate::arriving::{Arriving, FACK_WAYS};
use crate::generate::cancel::{CANCEL_ACK_WAYS, CANCEL_WAYS};
use crate::generate::fragment::{
    contradicting, impossible, lacking, repeated, Place, CONTRADICTIONS,
};
use crate::generate::random::Random;
use crate::records::client::Client;

/// The types that no client takes.
const OTHER_TYPES: [u8; 4] = [
    pdu_type::REQUEST,
    pdu_type::PING,
    pdu_type::ACK,
    pdu_type::CANCEL,
];

/// A fault or reject of 0 to 3 bytes.
const FAILURE_WAYS: usize = 8;

/// All ways in which a body is malformed.
pub const MALFORMED_WAYS: usize = FAILURE_WAYS + FACK_WAYS + CANCEL_ACK_WAYS;

impl Arriving {
    /// A response with a fragment that the record lacks.
    pub fn response(client: &Client, random: &mut Random) -> Arriving {
        let place = lacking(&client.incoming, random);
        Arriving::response_at(place, client, random)
    }

    fn response_at((number, bits): Place, client: &Client, random: &mut Random) -> Arriving {
        Arriving::response_of(number, bits, client, random)
    }

    /// A response with the number and the fragment bits given, any other flags.
    pub fn response_of(
        number: u16,
        fragment_bits: u8,
        client: &Client,
        random: &mut Random,
    ) -> Arriving {
        Arriving::of_type(pdu_type::RESPONSE, client, random).with_fragment(number, fragment_bits)
    }

    /// A response with a fragment that the record holds, if it holds one.
    pub fn repeated_response(client: &Client, random: &mut Random) -> Arriving {
        let place = repeated(&client.incoming, random);
        Arriving::response_at(place, client, random)
    }

    /// A response with a number that no fragment has, or one that needs the fragment bit.
    pub fn impossible_response(way: usize, client: &Client, random: &mut Random) -> Arriving {
        let place = impossible(way, &client.incoming, random);
        Arriving::response_at(place, client, random)
    }

    /// A response that contradicts what is held, or a fack of more than is out.
    pub fn contradiction(client: &Client, random: &mut Random) -> Arriving {
        let way = random.between(0, CONTRADICTIONS);
        if let Some(place) = contradicting(way, &client.incoming, random) {
            return Arriving::response_at(place, client, random);
        }
        Arriving::fack_of_more(client, random)
    }

    /// A PDU of a type that no client takes; a cancel among them may be malformed.
    pub fn other_type(client: &Client, random: &mut Random) -> Arriving {
        let pdu_type = random.pick(&OTHER_TYPES);
        let mut arriving = Arriving::of_type(pdu_type, client, random);
        if pdu_type == pdu_type::CANCEL && random.percent(50) {
            arriving.damage_cancel(random.between(0, CANCEL_WAYS - 1), random);
        }
        arriving
    }

    /// A cancel_ack that mostly has the number of the last cancel.
    pub fn cancel_ack(client: &Client, random: &mut Random) -> Arriving {
        let number = client.own.cancel_number;
        let any = random.field_u32();
        let number = random.pick(&[number, number, number, number.wrapping_sub(1), any]);
        Arriving::cancel_ack_of(number, client, random)
    }

    /// A cancel_ack that the record has no row for.
    pub fn cancel_ack_without_a_row(client: &Client, random: &mut Random) -> Arriving {
        let number = client.own.cancel_number;
        let other = random.pick(&[
            number.wrapping_sub(1),
            number.wrapping_add(1),
            number ^ 1 << 31,
        ]);
        match client.own.cancel {
            Some(_) => Arriving::cancel_ack_of(other, client, random),
            None => Arriving::cancel_ack_of(random.pick(&[number, other]), client, random),
        }
    }

    /// A fault, reject, fack or cancel_ack whose body is malformed in one of so many ways.
    pub fn malformed(way: usize, client: &Client, random: &mut Random) -> Arriving {
        let failure = [pdu_type::FAULT, pdu_type::REJECT][way % 2];
        if way < FAILURE_WAYS {
            let mut arriving = Arriving::of_type(failure, client, random);
            arriving.body.truncate(way / 2);
            return arriving;
        }
        let way = way - FAILURE_WAYS;
        if way < FACK_WAYS {
            return Arriving::malformed_fack(way, client, random);
        }
        let mut arriving = Arriving::cancel_ack(client, random);
        arriving.damage_cancel(way - FACK_WAYS, random);
        arriving
    }
}
