//! Messages made from a seed.

use crate::codec::pdu::BODY_LIMIT;

/// The bytes of a message. Neighbours differ, and so do the same places of different fragments.
pub fn message(length: usize, seed: u8) -> Vec<u8> {
    let mut bytes = vec![0; length];
    for (fragment, part) in bytes.chunks_mut(BODY_LIMIT).enumerate() {
        let first = fragment * BODY_LIMIT;
        let mut byte = (usize::from(seed) + 7 * first + fragment) as u8;
        for place in part {
            *place = byte;
            byte = byte.wrapping_add(7);
        }
    }
    bytes
}

/// The message made last, which is mostly wanted again for its next fragment.
#[derive(Default)]
pub struct LastMessage {
    seed: u8,
    bytes: Vec<u8>,
}

impl LastMessage {
    pub fn of(&mut self, length: usize, seed: u8) -> &[u8] {
        if (self.bytes.len(), self.seed) != (length, seed) {
            self.seed = seed;
            self.bytes = message(length, seed);
        }
        &self.bytes
    }
}
