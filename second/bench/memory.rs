//! The memory that a host lends to one implementation for one side.

use crate::codec::pdu::{HEADER_LENGTH, PDU_LIMIT};
use crate::door::invocation::Lent;
use crate::door::layout::RECORD_LENGTH;
use crate::records::incoming::SLOT_BUFFER_LENGTH;

/// How many bytes of each buffer are lent.
#[derive(Clone, Copy, Debug, PartialEq, Eq)]
pub struct Lengths {
    pub record: usize,
    pub slots: usize,
    pub pdu: usize,
    pub header: usize,
}

/// The right ones.
pub const RIGHT: Lengths = Lengths {
    record: RECORD_LENGTH,
    slots: SLOT_BUFFER_LENGTH,
    pdu: PDU_LIMIT,
    header: HEADER_LENGTH,
};

/// The most that can be lent of each. What is not lent must stay as it is.
pub const MOST: Lengths = Lengths {
    record: 288,
    slots: 45_936,
    pdu: 2_048,
    header: 96,
};

/// What buffers are filled with before they are lent.
pub const PDU_FILL: u8 = 0xa5;
pub const SLOTS_FILL: u8 = 0x5a;
pub const RECORD_FILL: u8 = 0x3c;

/// A buffer that begins so many bytes behind an address that all alignments have.
#[derive(Clone)]
pub struct Buffer {
    bytes: Vec<u8>,
    begin: usize,
}

impl Buffer {
    fn new(length: usize, fill: u8, begin: usize) -> Buffer {
        // The allocation itself is aligned to 8 at least.
        let bytes = vec![fill; length + begin];
        Buffer { bytes, begin }
    }

    pub fn whole(&self) -> &[u8] {
        &self.bytes[self.begin..]
    }

    pub fn whole_mut(&mut self) -> &mut [u8] {
        &mut self.bytes[self.begin..]
    }

    /// The first so many bytes.
    pub fn front(&mut self, length: usize) -> &mut [u8] {
        &mut self.whole_mut()[..length]
    }
}

impl PartialEq for Buffer {
    fn eq(&self, other: &Buffer) -> bool {
        self.whole() == other.whole()
    }
}

/// Record, slots, PDU buffer and header buffer.
#[derive(PartialEq)]
pub struct Memory {
    pub record: Buffer,
    pub slots: Buffer,
    pub pdu: Buffer,
    pub header: Buffer,
}

impl Memory {
    /// Memory that is aligned, or not at all.
    pub fn new(is_aligned: bool) -> Memory {
        let begin = |place: usize| if is_aligned { 0 } else { place };
        Memory {
            record: Buffer::new(MOST.record, RECORD_FILL, begin(3)),
            slots: Buffer::new(MOST.slots, SLOTS_FILL, begin(1)),
            pdu: Buffer::new(MOST.pdu, PDU_FILL, begin(5)),
            header: Buffer::new(MOST.header, PDU_FILL, begin(7)),
        }
    }

    /// The slots are as they are before anything is put.
    pub fn clear_slots(&mut self) {
        self.slots.whole_mut().fill(SLOTS_FILL);
    }

    /// Before each event nothing is in the buffers for what it sends or reads.
    pub fn clear_sent(&mut self) {
        self.pdu.whole_mut().fill(PDU_FILL);
    }

    pub fn clear_header(&mut self) {
        self.header.whole_mut().fill(PDU_FILL);
    }

    /// The bytes behind those that are lent as a record stay as they are.
    pub fn set_record(&mut self, bytes: &[u8]) {
        self.record.whole_mut().fill(RECORD_FILL);
        self.record.front(bytes.len()).copy_from_slice(bytes);
    }

    /// So many bytes of each buffer.
    pub fn lent(&mut self, lengths: Lengths) -> Lent<'_> {
        Lent {
            record: self.record.front(lengths.record),
            slots: self.slots.front(lengths.slots),
            pdu: self.pdu.front(lengths.pdu),
        }
    }

    /// All bytes become those of the other.
    pub fn copy_from(&mut self, other: &Memory) {
        let pairs = [
            (&mut self.record, &other.record),
            (&mut self.slots, &other.slots),
            (&mut self.pdu, &other.pdu),
            (&mut self.header, &other.header),
        ];
        for (to, from) in pairs {
            to.whole_mut().copy_from_slice(from.whole());
        }
    }
}
