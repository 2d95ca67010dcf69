//! What the checks of both sides use: PDUs that arrive or are sent.

use crate::bench::memory::PDU_FILL;
use crate::bench::message::message;
use crate::codec::pdu::{ByteOrder, Header, Uuid};
use crate::generate::datagram::datagram;
use crate::generate::random::Random;
use crate::machines::effect::{Effect, Notice};
use crate::machines::event::Event;
use crate::machines::refusal::Refusal;
use crate::self_test::stage::{OnStage, Stage};

/// What names the calls of the checks, and the ticket counter of fresh records.
pub const ACTIVITY: Uuid = *b"an activity uuid";
pub const OBJECT: Uuid = *b"this object uuid";
pub const INTERFACE: Uuid = *b"interface's uuid";
pub const TICKETS: u64 = 5;

/// The body of a fack with the serial that it answers and its mask.
pub fn fack_body(answered: u16, mask: u32) -> Vec<u8> {
    let mut body = vec![0, 0, 43, 0, 0xc0, 5, 0, 0, 0xc0, 5, 0, 0];
    body.extend(answered.to_le_bytes());
    body.extend([1, 0]);
    body.extend(mask.to_le_bytes());
    body
}

/// What an event gives.
pub type Outcome = Result<Effect, Refusal>;

/// An event that is done, without a PDU or notice.
pub fn done() -> Outcome {
    Ok(Effect::nothing())
}

/// An event that gives only a notice.
pub fn only(notice: Notice) -> Outcome {
    Ok(Effect::of_notice(notice))
}

/// A PDU of the call given, with serial 258.
pub fn header_of(pdu_type: u8, number: u32, flags1: u8, fragment_number: u16) -> Header {
    let mut header = Random::new(3).header(pdu_type);
    header.activity = ACTIVITY;
    header.object = OBJECT;
    header.interface = INTERFACE;
    header.interface_version = 0x0102_0304;
    header.operation = 0x0506;
    header.call_number = number;
    header.serial = 258;
    header.flags1 = flags1;
    header.fragment_number = fragment_number;
    header
}

/// A PDU arrives at a side from a sender of the big-endian order.
pub fn arrive_at<S: OnStage>(stage: &mut Stage, header: &Header, body: &[u8]) -> Outcome {
    arrive_in::<S>(stage, ByteOrder::Big, header, body)
}

/// The same from a sender of the byte order given.
pub fn arrive_in<S: OnStage>(
    stage: &mut Stage,
    order: ByteOrder,
    header: &Header,
    body: &[u8],
) -> Outcome {
    let datagram = &datagram(header, order, body);
    stage.event::<S>(&Event::Arrive { datagram })
}

/// The message that is out is lent, made from seed 9.
pub fn transmit_of<S: OnStage>(stage: &mut Stage) -> Outcome {
    let length = S::record(stage).outgoing.length;
    let message = &message(length as usize, 9);
    stage.event::<S>(&Event::Transmit { message })
}

/// What in a PDU is the sender's: boot value and call number.
pub struct Sender {
    pub boot: [u8; 4],
    pub number: u8,
}

impl Sender {
    /// A PDU that the sender sends, byte for byte.
    pub fn bytes(
        &self,
        pdu_type: u8,
        flags1: u8,
        serial: u8,
        fragment: u16,
        body: &[u8],
    ) -> Vec<u8> {
        let mut bytes = vec![4, pdu_type, flags1, 0, 16, 0, 0, 0];
        bytes.extend(b"this object uuidinterface's uuidan activity uuid");
        bytes.extend(self.boot);
        bytes.extend([4, 3, 2, 1, self.number, 0, 0, 0, 6, 5]);
        bytes.extend([255, 255, 255, 255]);
        bytes.extend((body.len() as u16).to_le_bytes());
        bytes.extend(fragment.to_le_bytes());
        bytes.extend([0, serial]);
        bytes.extend(body);
        bytes
    }
}

/// Whether an event sends just the PDU and gives just the notice.
pub fn sends(stage: &Stage, outcome: &Outcome, pdu: &[u8], notice: Option<Notice>) -> bool {
    let effect = Effect {
        pdu_length: Some(pdu.len()),
        notice,
    };
    *outcome == Ok(effect) && stage.pdu.starts_with(pdu)
}

/// Whether the last event has left the PDU buffer as it was.
pub fn is_silent(stage: &Stage) -> bool {
    stage.pdu.iter().all(|byte| *byte == PDU_FILL)
}

/// A datagram of so many bytes that can be read: a big-endian request of zeros.
fn good_datagram(length: usize) -> Vec<u8> {
    let mut bytes = vec![0; length];
    bytes[0] = 4;
    bytes[74..76].copy_from_slice(&((length - 80) as u16).to_be_bytes());
    bytes
}

/// One of 80 bytes of which one is changed.
pub fn changed_datagram(at: usize, byte: u8) -> Vec<u8> {
    let mut bytes = good_datagram(80);
    bytes[at] = byte;
    bytes
}

/// Datagrams with the number that the reader answers, and what they are.
pub fn datagram_rows() -> Vec<(Vec<u8>, u8, &'static str)> {
    vec![
        (vec![], 3, "empty datagram"),
        (good_datagram(80)[..79].to_vec(), 3, "79 bytes"),
        (vec![0; 80], 4, "80 zero bytes"),
        (changed_datagram(0, 0x14), 4, "version 0x14"),
        (changed_datagram(1, 11), 5, "type 11"),
        (changed_datagram(4, 32), 6, "representation 32,0,0"),
        (changed_datagram(78, 1), 7, "authentication 1"),
        (changed_datagram(75, 1), 8, "body length 1 in 80 bytes"),
        (good_datagram(1_473), 8, "body length 1393 in 1473 bytes"),
        (good_datagram(1_472), 0, "body length 1392 in 1472 bytes"),
    ]
}
