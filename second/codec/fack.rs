//! What a fack says of the fragments that are held, word for word as document 01 has it.

use crate::codec::pdu::{flags1, ByteOrder};

/// Fragments of a message have the numbers 0 to 31.
pub const FRAGMENTS: u32 = 32;

const WINDOW: u16 = 43;
const SIZE: u32 = 1_472;

/// The length of a fack's body without its masks.
const FIXED_LENGTH: usize = 16;

/// The fragments held: bit f is set where fragment f is.
#[derive(Clone, Copy, Debug, PartialEq, Eq)]
pub struct Held(pub u32);

impl Held {
    fn holds(self, fragment: u32) -> bool {
        fragment < FRAGMENTS && self.0 >> fragment & 1 == 1
    }

    /// How many fragments from 0 on are held without a gap.
    pub fn contiguous(self) -> u32 {
        (0..FRAGMENTS)
            .take_while(|&fragment| self.holds(fragment))
            .count() as u32
    }

    /// The header's fragment number: the contiguous count less 1, or 65535 for none.
    pub fn number(self) -> u16 {
        (self.contiguous() as u16).wrapping_sub(1)
    }

    /// Bit j is set exactly when fragment (g + 1 + j) mod 65536 is held.
    pub fn mask(self) -> u32 {
        let number = u32::from(self.number());
        (0..32)
            .filter(|j| self.holds((number + 1 + j) % 65_536))
            .fold(0, |mask, j| mask | 1 << j)
    }
}

/// A request or response that is put gets a fack exactly when its no fack bit is clear and its
/// fragment bit is set (request 1). So a message that our own machines send as one fragment gets
/// none, and every fragment of a longer one does.
pub fn is_due(flags: u8) -> bool {
    flags & (flags1::NO_FACK | flags1::FRAGMENT) == flags1::FRAGMENT
}

/// Malformed is another version than 0, or another length than the word count says.
pub fn is_malformed(body: &[u8], order: ByteOrder) -> bool {
    let Some(fixed) = body.first_chunk::<FIXED_LENGTH>() else {
        return true;
    };
    let words = order.u16([fixed[14], fixed[15]]);
    fixed[0] != 0 || body.len() != FIXED_LENGTH + 4 * usize::from(words)
}

/// The body of a fack as it is written, with one mask.
pub fn body(serial_answered: u16, mask: u32) -> Vec<u8> {
    let mut body = vec![0, 0];
    body.extend(WINDOW.to_le_bytes());
    body.extend(SIZE.to_le_bytes());
    body.extend(SIZE.to_le_bytes());
    body.extend(serial_answered.to_le_bytes());
    body.extend(1u16.to_le_bytes());
    body.extend(mask.to_le_bytes());
    body
}
