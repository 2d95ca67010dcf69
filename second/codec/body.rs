//! The bodies that are judged: those of a fault, a reject, a fack, a cancel and a cancel_ack.

use crate::codec::pdu::{pdu_type, ByteOrder, Pdu};
use crate::codec::{cancel, fack};

/// The status of a fault or reject, which comes first; none where the body is under 4 bytes.
pub fn status(body: &[u8], order: ByteOrder) -> Option<u32> {
    body.first_chunk().map(|bytes| order.u32(*bytes))
}

pub fn is_malformed(pdu: &Pdu) -> bool {
    match pdu.header.pdu_type {
        pdu_type::FAULT | pdu_type::REJECT => status(pdu.body, pdu.order).is_none(),
        pdu_type::FACK => fack::is_malformed(pdu.body, pdu.order),
        pdu_type::CANCEL => cancel::number(pdu.body, pdu.order).is_none(),
        pdu_type::CANCEL_ACK => cancel::acknowledged_number(pdu.body, pdu.order).is_none(),
        _ => false,
    }
}
