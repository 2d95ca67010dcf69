//! Datagrams as a sender of either byte order makes them, to be read. They are put together apart
//! from the writer, field after field.

use crate::codec::pdu::{turned, ByteOrder, Header, Uuid, HEADER_LENGTH, VERSION};

pub fn datagram(header: &Header, order: ByteOrder, body: &[u8]) -> Vec<u8> {
    let bytes = Vec::with_capacity(HEADER_LENGTH + body.len());
    let mut datagram = Datagram { order, bytes };
    datagram.bytes(&[VERSION, header.pdu_type, header.flags1, header.flags2]);
    datagram.bytes(&order.representation());
    datagram.bytes(&[(header.serial / 256) as u8]);
    datagram.uuid(header.object);
    datagram.uuid(header.interface);
    datagram.uuid(header.activity);
    datagram.u32(header.server_boot);
    datagram.u32(header.interface_version);
    datagram.u32(header.call_number);
    datagram.u16(header.operation);
    datagram.u16(header.interface_hint);
    datagram.u16(header.activity_hint);
    datagram.u16(body.len() as u16);
    datagram.u16(header.fragment_number);
    datagram.bytes(&[header.authentication, (header.serial % 256) as u8]);
    datagram.bytes(body);
    datagram.bytes
}

struct Datagram {
    order: ByteOrder,
    bytes: Vec<u8>,
}

impl Datagram {
    fn bytes(&mut self, bytes: &[u8]) {
        self.bytes.extend(bytes);
    }

    fn u16(&mut self, number: u16) {
        self.bytes(&u16_bytes(number, self.order));
    }

    fn u32(&mut self, number: u32) {
        self.bytes(&u32_bytes(number, self.order));
    }

    fn uuid(&mut self, uuid: Uuid) {
        match self.order {
            ByteOrder::Little => self.bytes(&uuid),
            ByteOrder::Big => self.bytes(&turned(uuid)),
        }
    }
}

pub fn u32_bytes(number: u32, order: ByteOrder) -> [u8; 4] {
    match order {
        ByteOrder::Little => number.to_le_bytes(),
        ByteOrder::Big => number.to_be_bytes(),
    }
}

pub fn u16_bytes(number: u16, order: ByteOrder) -> [u8; 2] {
    match order {
        ByteOrder::Little => number.to_le_bytes(),
        ByteOrder::Big => number.to_be_bytes(),
    }
}
