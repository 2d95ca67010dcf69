//! Reading and writing the places of a record.

use super::layout::RECORD_LENGTH;

/// A record as it is lent.
pub type RecordBytes = [u8; RECORD_LENGTH];

/// The bytes of a record, read by place.
pub struct Places<'a>(pub &'a RecordBytes);

impl Places<'_> {
    pub fn array<const LENGTH: usize>(&self, at: usize) -> [u8; LENGTH] {
        let mut array = [0; LENGTH];
        array.copy_from_slice(&self.0[at..at + LENGTH]);
        array
    }

    pub fn u8(&self, at: usize) -> u8 {
        self.0[at]
    }

    pub fn u16(&self, at: usize) -> u16 {
        u16::from_le_bytes(self.array(at))
    }

    pub fn u32(&self, at: usize) -> u32 {
        u32::from_le_bytes(self.array(at))
    }

    pub fn u64(&self, at: usize) -> u64 {
        u64::from_le_bytes(self.array(at))
    }

    /// A mark, which is 0 or 1.
    pub fn mark(&self, at: usize) -> Option<bool> {
        match self.0[at] {
            0 => Some(false),
            1 => Some(true),
            _ => None,
        }
    }

    /// A count in two bytes that is kept in one.
    pub fn count(&self, at: usize) -> Option<u8> {
        u8::try_from(self.u16(at)).ok()
    }

    /// Whether all bytes of the places are 0.
    pub fn are_spare(&self, places: &[(usize, usize)]) -> bool {
        let mut bytes = places.iter().flat_map(|&(from, to)| &self.0[from..to]);
        bytes.all(|byte| *byte == 0)
    }
}

/// Puts a field into its place.
pub fn put(bytes: &mut RecordBytes, at: usize, field: &[u8]) {
    bytes[at..at + field.len()].copy_from_slice(field);
}
