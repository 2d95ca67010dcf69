//! The reader and the writer of the connectionless PDU: a header of 80 bytes and a body.

use crate::machines::refusal::Refusal;

pub const HEADER_LENGTH: usize = 80;
pub const BODY_LIMIT: usize = 1_392;
pub const PDU_LIMIT: usize = HEADER_LENGTH + BODY_LIMIT;
pub const VERSION: u8 = 4;
pub const HIGHEST_TYPE: u8 = 10;

pub mod pdu_type {
    pub const REQUEST: u8 = 0;
    pub const PING: u8 = 1;
    pub const RESPONSE: u8 = 2;
    pub const FAULT: u8 = 3;
    pub const WORKING: u8 = 4;
    pub const NOCALL: u8 = 5;
    pub const REJECT: u8 = 6;
    pub const ACK: u8 = 7;
    pub const CANCEL: u8 = 8;
    pub const FACK: u8 = 9;
    pub const CANCEL_ACK: u8 = 10;
}

pub mod flags1 {
    pub const LAST_FRAGMENT: u8 = 2;
    pub const FRAGMENT: u8 = 4;
    pub const NO_FACK: u8 = 8;
    pub const MAYBE: u8 = 16;
    pub const IDEMPOTENT: u8 = 32;
    pub const BROADCAST: u8 = 64;
}

/// Where each field of the header lies.
pub mod offset {
    pub const VERSION: usize = 0;
    pub const TYPE: usize = 1;
    pub const FLAGS1: usize = 2;
    pub const FLAGS2: usize = 3;
    pub const REPRESENTATION: usize = 4;
    pub const SERIAL_HIGH: usize = 7;
    pub const OBJECT: usize = 8;
    pub const INTERFACE: usize = 24;
    pub const ACTIVITY: usize = 40;
    pub const SERVER_BOOT: usize = 56;
    pub const INTERFACE_VERSION: usize = 60;
    pub const CALL_NUMBER: usize = 64;
    pub const OPERATION: usize = 68;
    pub const INTERFACE_HINT: usize = 70;
    pub const ACTIVITY_HINT: usize = 72;
    pub const BODY_LENGTH: usize = 74;
    pub const FRAGMENT_NUMBER: usize = 76;
    pub const AUTHENTICATION: usize = 78;
    pub const SERIAL_LOW: usize = 79;
}

/// A UUID in its little-endian form: u32, u16, u16, 8 bytes.
pub type Uuid = [u8; 16];

pub type HeaderBytes = [u8; HEADER_LENGTH];

#[derive(Clone, Copy, Debug, PartialEq, Eq)]
pub enum ByteOrder {
    Little,
    Big,
}

impl ByteOrder {
    pub fn representation(self) -> [u8; 3] {
        match self {
            ByteOrder::Little => [16, 0, 0],
            ByteOrder::Big => [0, 0, 0],
        }
    }

    pub fn of_representation(representation: [u8; 3]) -> Option<ByteOrder> {
        match representation {
            [16, 0, 0] => Some(ByteOrder::Little),
            [0, 0, 0] => Some(ByteOrder::Big),
            _ => None,
        }
    }

    pub fn u16(self, bytes: [u8; 2]) -> u16 {
        match self {
            ByteOrder::Little => u16::from_le_bytes(bytes),
            ByteOrder::Big => u16::from_be_bytes(bytes),
        }
    }

    pub fn u32(self, bytes: [u8; 4]) -> u32 {
        match self {
            ByteOrder::Little => u32::from_le_bytes(bytes),
            ByteOrder::Big => u32::from_be_bytes(bytes),
        }
    }
}

/// The fields of a header. Version, representation and body length are not among them: the reader
/// judges them and the writer sets them.
#[derive(Clone, Debug, PartialEq, Eq)]
pub struct Header {
    pub pdu_type: u8,
    pub flags1: u8,
    pub flags2: u8,
    pub serial: u16,
    pub object: Uuid,
    pub interface: Uuid,
    pub activity: Uuid,
    pub server_boot: u32,
    pub interface_version: u32,
    pub call_number: u32,
    pub operation: u16,
    pub interface_hint: u16,
    pub activity_hint: u16,
    pub fragment_number: u16,
    pub authentication: u8,
}

/// A PDU that was read. Its body is the part of the datagram from byte 80.
#[derive(Clone, Debug, PartialEq, Eq)]
pub struct Pdu<'a> {
    pub order: ByteOrder,
    pub header: Header,
    pub body: &'a [u8],
}

/// Reads a datagram. The refusals are tried in the order of their numbers.
pub fn read(datagram: &[u8]) -> Result<Pdu<'_>, Refusal> {
    let Some((bytes, body)) = datagram.split_first_chunk::<HEADER_LENGTH>() else {
        return Err(Refusal::ShortDatagram);
    };
    if bytes[offset::VERSION] != VERSION {
        return Err(Refusal::Version);
    }
    if bytes[offset::TYPE] > HIGHEST_TYPE {
        return Err(Refusal::Type);
    }
    let Some(order) = ByteOrder::of_representation(array_at(bytes, offset::REPRESENTATION)) else {
        return Err(Refusal::Representation);
    };
    if bytes[offset::AUTHENTICATION] != 0 {
        return Err(Refusal::Authentication);
    }
    let body_length = usize::from(u16_at(bytes, offset::BODY_LENGTH, order));
    if body_length > BODY_LIMIT || body_length != body.len() {
        return Err(Refusal::BodyLength);
    }
    Ok(Pdu {
        order,
        header: read_header(bytes, order),
        body,
    })
}

pub fn read_header(bytes: &HeaderBytes, order: ByteOrder) -> Header {
    Header {
        pdu_type: bytes[offset::TYPE],
        flags1: bytes[offset::FLAGS1],
        flags2: bytes[offset::FLAGS2],
        serial: u16::from_be_bytes([bytes[offset::SERIAL_HIGH], bytes[offset::SERIAL_LOW]]),
        object: uuid_at(bytes, offset::OBJECT, order),
        interface: uuid_at(bytes, offset::INTERFACE, order),
        activity: uuid_at(bytes, offset::ACTIVITY, order),
        server_boot: u32_at(bytes, offset::SERVER_BOOT, order),
        interface_version: u32_at(bytes, offset::INTERFACE_VERSION, order),
        call_number: u32_at(bytes, offset::CALL_NUMBER, order),
        operation: u16_at(bytes, offset::OPERATION, order),
        interface_hint: u16_at(bytes, offset::INTERFACE_HINT, order),
        activity_hint: u16_at(bytes, offset::ACTIVITY_HINT, order),
        fragment_number: u16_at(bytes, offset::FRAGMENT_NUMBER, order),
        authentication: bytes[offset::AUTHENTICATION],
    }
}

/// Writes a PDU to the beginning of the lent buffer and gives its length. The bytes behind it stay
/// as they were; on a refusal all of them do.
pub fn write(header: &Header, body: &[u8], lent: &mut [u8]) -> Result<usize, Refusal> {
    if lent.len() != PDU_LIMIT {
        return Err(Refusal::LentBuffer);
    }
    if header.pdu_type > HIGHEST_TYPE {
        return Err(Refusal::Type);
    }
    if header.authentication != 0 {
        return Err(Refusal::Authentication);
    }
    if body.len() > BODY_LIMIT {
        return Err(Refusal::BodyLength);
    }
    Ok(put_pdu(header, body, lent))
}

/// The same without a judgement, for a PDU of the machines: these judge what is lent beforehand.
pub fn put_pdu(header: &Header, body: &[u8], lent: &mut [u8]) -> usize {
    let pdu_length = HEADER_LENGTH + body.len();
    lent[..HEADER_LENGTH].copy_from_slice(&written_header(header, body.len() as u16));
    lent[HEADER_LENGTH..pdu_length].copy_from_slice(body);
    pdu_length
}

/// The header as it is written: always little-endian.
pub fn written_header(header: &Header, body_length: u16) -> HeaderBytes {
    let [serial_high, serial_low] = header.serial.to_be_bytes();
    let mut bytes = [0; HEADER_LENGTH];
    let mut put = |at: usize, field: &[u8]| bytes[at..at + field.len()].copy_from_slice(field);
    put(offset::VERSION, &[VERSION]);
    put(offset::TYPE, &[header.pdu_type]);
    put(offset::FLAGS1, &[header.flags1]);
    put(offset::FLAGS2, &[header.flags2]);
    put(offset::REPRESENTATION, &ByteOrder::Little.representation());
    put(offset::SERIAL_HIGH, &[serial_high]);
    put(offset::OBJECT, &header.object);
    put(offset::INTERFACE, &header.interface);
    put(offset::ACTIVITY, &header.activity);
    put(offset::SERVER_BOOT, &header.server_boot.to_le_bytes());
    let version = header.interface_version.to_le_bytes();
    put(offset::INTERFACE_VERSION, &version);
    put(offset::CALL_NUMBER, &header.call_number.to_le_bytes());
    put(offset::OPERATION, &header.operation.to_le_bytes());
    put(offset::INTERFACE_HINT, &header.interface_hint.to_le_bytes());
    put(offset::ACTIVITY_HINT, &header.activity_hint.to_le_bytes());
    put(offset::BODY_LENGTH, &body_length.to_le_bytes());
    let fragment_number = header.fragment_number.to_le_bytes();
    put(offset::FRAGMENT_NUMBER, &fragment_number);
    put(offset::AUTHENTICATION, &[header.authentication]);
    put(offset::SERIAL_LOW, &[serial_low]);
    bytes
}

/// A UUID of one byte order in the other: u32, u16 and u16 turned, the last 8 bytes as they are.
pub fn turned(mut uuid: Uuid) -> Uuid {
    uuid[0..4].reverse();
    uuid[4..6].reverse();
    uuid[6..8].reverse();
    uuid
}

fn uuid_at(bytes: &HeaderBytes, at: usize, order: ByteOrder) -> Uuid {
    match order {
        ByteOrder::Little => array_at(bytes, at),
        ByteOrder::Big => turned(array_at(bytes, at)),
    }
}

fn u16_at(bytes: &HeaderBytes, at: usize, order: ByteOrder) -> u16 {
    order.u16(array_at(bytes, at))
}

fn u32_at(bytes: &HeaderBytes, at: usize, order: ByteOrder) -> u32 {
    order.u32(array_at(bytes, at))
}

fn array_at<const LENGTH: usize>(bytes: &HeaderBytes, at: usize) -> [u8; LENGTH] {
    let mut array = [0; LENGTH];
    array.copy_from_slice(&bytes[at..at + LENGTH]);
    array
}
