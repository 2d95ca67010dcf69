//! The header of a PDU, read and written without a record.

use crate::door;
use crate::{Refusal, HEADER_SIZE, PDU_SIZE};
use std::fmt;

/// A header of 80 bytes in its little-endian form.
#[derive(Clone, Copy, Debug, PartialEq, Eq)]
pub struct Header {
    bytes: [u8; HEADER_SIZE],
}

/// The type of a PDU.
#[derive(Clone, Copy, Debug, PartialEq, Eq)]
pub enum PduType {
    /// 0: a fragment of a request.
    Request,
    /// 1: the client asks what became of its call.
    Ping,
    /// 2: a fragment of a reply.
    Response,
    /// 3: the operation failed.
    Fault,
    /// 4: the call is being executed.
    Working,
    /// 5: the server does not have the call.
    Nocall,
    /// 6: the call was not executed.
    Reject,
    /// 7: the client has the reply.
    Ack,
    /// 8: the client wants the call to end.
    Cancel,
    /// 9: which fragments are there.
    Fack,
    /// 10: the server has the cancel, and tells whether the call was running.
    CancelAck,
    /// Another number, which no PDU that can be read has.
    Other(u8),
}

/// flags1: the last fragment.
pub const LAST_FRAGMENT: u8 = 2;
/// flags1: one of several fragments.
pub const FRAGMENT: u8 = 4;
/// flags1: no fack is wanted.
pub const NO_FACK: u8 = 8;
/// flags1: the call is idempotent.
pub const IDEMPOTENT: u8 = 32;

impl Header {
    /// Reads the header of a datagram; the body is what follows it.
    pub fn read(datagram: &[u8]) -> Result<Header, Refusal> {
        let mut bytes = [0; HEADER_SIZE];
        let result = door::read(datagram, &mut bytes);
        match Refusal::of(result as u8) {
            None => Ok(Header { bytes }),
            Some(refusal) => Err(refusal),
        }
    }

    /// Writes a PDU of this header and a body to the front of the buffer. Gives the PDU's length. Version,
    /// representation and body length are set by the writer.
    pub fn write(&self, body: &[u8], pdu: &mut [u8; PDU_SIZE]) -> Result<usize, Refusal> {
        let result = door::write(&self.bytes, body, pdu);
        match Refusal::of(result as u8) {
            None => Ok(usize::from((result >> 16) as u16)),
            Some(refusal) => Err(refusal),
        }
    }

    /// The header of these bytes, whatever they are; [`Header::write`] judges them.
    pub fn from_bytes(bytes: [u8; HEADER_SIZE]) -> Header {
        Header { bytes }
    }

    /// Its bytes. Byte 4 tells the sender's order: 16 little-endian, 0 big-endian.
    pub fn bytes(&self) -> &[u8; HEADER_SIZE] {
        &self.bytes
    }

    /// The type of the PDU.
    pub fn pdu_type(&self) -> PduType {
        PduType::of(self.bytes[1])
    }

    /// The first byte of flags.
    pub fn flags(&self) -> u8 {
        self.bytes[2]
    }

    /// Whether a flag of the first byte is set, for instance [`IDEMPOTENT`].
    pub fn has(&self, flag: u8) -> bool {
        self.bytes[2] & flag != 0
    }

    /// The sender's serial number.
    pub fn serial(&self) -> u16 {
        u16::from_be_bytes([self.bytes[7], self.bytes[79]])
    }

    /// The activity, a UUID in its little-endian form.
    pub fn activity(&self) -> [u8; 16] {
        let mut activity = [0; 16];
        activity.copy_from_slice(&self.bytes[40..56]);
        activity
    }

    /// The call number.
    pub fn number(&self) -> u32 {
        let b = &self.bytes;
        u32::from_le_bytes([b[64], b[65], b[66], b[67]])
    }

    /// The length of the body.
    pub fn body_length(&self) -> u16 {
        u16::from_le_bytes([self.bytes[74], self.bytes[75]])
    }

    /// The fragment number.
    pub fn fragment(&self) -> u16 {
        u16::from_le_bytes([self.bytes[76], self.bytes[77]])
    }
}

impl PduType {
    /// The type of a number.
    pub fn of(number: u8) -> PduType {
        match number {
            0 => PduType::Request,
            1 => PduType::Ping,
            2 => PduType::Response,
            3 => PduType::Fault,
            4 => PduType::Working,
            5 => PduType::Nocall,
            6 => PduType::Reject,
            7 => PduType::Ack,
            8 => PduType::Cancel,
            9 => PduType::Fack,
            10 => PduType::CancelAck,
            other => PduType::Other(other),
        }
    }
}

impl fmt::Display for PduType {
    fn fmt(&self, to: &mut fmt::Formatter<'_>) -> fmt::Result {
        to.pad(match self {
            PduType::Request => "request",
            PduType::Ping => "ping",
            PduType::Response => "response",
            PduType::Fault => "fault",
            PduType::Working => "working",
            PduType::Nocall => "nocall",
            PduType::Reject => "reject",
            PduType::Ack => "ack",
            PduType::Cancel => "cancel",
            PduType::Fack => "fack",
            PduType::CancelAck => "cancel_ack",
            PduType::Other(_) => "another",
        })
    }
}
