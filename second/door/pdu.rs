//! Reader and writer at the door: a header is lent as 80 bytes in its little-endian form.

use crate::codec::pdu::{self, offset, read_header, written_header, ByteOrder, HeaderBytes};
use crate::machines::effect::Effect;
use crate::machines::refusal::Refusal;

/// Reads a datagram. Byte 4 of the header tells the sender's order; the writer's own is the little
/// one.
pub fn read(datagram: &[u8], header: &mut [u8]) -> Result<Effect, Refusal> {
    let header = <&mut HeaderBytes>::try_from(header).map_err(|_| Refusal::LentBuffer)?;
    let pdu = pdu::read(datagram)?;
    *header = written_header(&pdu.header, pdu.body.len() as u16);
    header[offset::REPRESENTATION] = pdu.order.representation()[0];
    Ok(Effect::nothing())
}

/// Writes a PDU. Representation, version and body length are the writer's, whatever the header has.
pub fn write(header: &[u8], body: &[u8], pdu: &mut [u8]) -> Result<Effect, Refusal> {
    let header = <&HeaderBytes>::try_from(header).map_err(|_| Refusal::LentBuffer)?;
    let header = read_header(header, ByteOrder::Little);
    pdu::write(&header, body, pdu).map(Effect::of_pdu)
}
