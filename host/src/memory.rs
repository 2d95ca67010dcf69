//! The memory that one side of an activity lends, and the places of a record that are for hosts.

use crate::{Outcome, MESSAGE_SIZE, PDU_SIZE, RECORD_SIZE, SLOTS_SIZE};

/// Record, slot buffer, PDU buffer and the message that is out.
pub(crate) struct Memory {
    pub record: [u8; RECORD_SIZE],
    pub slots: Box<[u8]>,
    pub pdu: [u8; PDU_SIZE],
    pub message: Vec<u8>,
}

impl Memory {
    pub fn new() -> Memory {
        Memory {
            record: [0; RECORD_SIZE],
            slots: vec![0; SLOTS_SIZE].into_boxed_slice(),
            pdu: [0; PDU_SIZE],
            message: Vec::new(),
        }
    }

    /// What an event gave back, with the PDU in the PDU buffer.
    pub fn outcome(&self, result: u64) -> Outcome<'_> {
        Outcome::of(result, &self.pdu)
    }

    /// Keeps the message of a start or reply that was answered 0; that of a refused one counts as none.
    pub fn keep(&mut self, result: u64, message: &[u8]) {
        if result as u8 == 0 {
            self.message.clear();
            self.message.extend_from_slice(message);
        }
    }

    /// The part of the slot buffer where a fragment lies that is so long.
    pub fn part(&self, number: u16, length: u64) -> &[u8] {
        let first = usize::from(number) * crate::FRAGMENT_SIZE;
        usize::try_from(length)
            .ok()
            .and_then(|length| self.slots.get(first..first.checked_add(length)?))
            .unwrap_or(&[])
    }

    pub fn short(&self, at: usize) -> u16 {
        u16::from_le_bytes(self.bytes(at))
    }

    pub fn word(&self, at: usize) -> u32 {
        u32::from_le_bytes(self.bytes(at))
    }

    pub fn uuid(&self, at: usize) -> [u8; 16] {
        self.bytes(at)
    }

    /// The ticket at that place, if the mark says that its timer is armed.
    pub fn ticket(&self, at: usize, mark: usize) -> Option<u64> {
        (self.record[mark] == 1).then(|| u64::from_le_bytes(self.bytes(at)))
    }

    fn bytes<const N: usize>(&self, at: usize) -> [u8; N] {
        let mut bytes = [0; N];
        bytes.copy_from_slice(&self.record[at..at + N]);
        bytes
    }
}

/// A length as the library takes it, in 32 bits. One that is too long for a message stays too long.
pub(crate) fn message_length(length: usize) -> u32 {
    length.min(MESSAGE_SIZE + 1) as u32
}

#[cfg(test)]
mod tests {
    use super::*;

    #[test]
    fn a_length_that_is_too_long_stays_so_in_32_bits() {
        assert_eq!(message_length(0), 0);
        assert_eq!(message_length(44_544), 44_544);
        assert_eq!(message_length(44_545), 44_545);
        assert_eq!(message_length((1 << 32) + 10), 44_545);
        assert_eq!(message_length(usize::MAX), 44_545);
    }

    #[test]
    fn a_part_outside_the_slot_buffer_is_empty() {
        let memory = Memory::new();
        assert_eq!(memory.part(31, 1392).len(), 1392);
        assert_eq!(memory.part(31, 1393).len(), 0);
        assert_eq!(memory.part(65_535, 1).len(), 0);
        assert_eq!(memory.part(0, u64::MAX).len(), 0);
    }
}
