//! What the facks say that are sent, by name.

use crate::codec::pdu::{offset, pdu_type, HEADER_LENGTH};
use crate::coverage::boundary::Boundary;
use crate::records::incoming::Incoming;

/// The number of a fack where nothing is contiguous.
const NONE: u16 = 65_535;

/// What a fack that is sent says: its number and its mask, as they lie in the PDU.
#[derive(Clone, Copy)]
pub struct SentFack {
    number: u16,
    mask: u32,
}

impl SentFack {
    /// The fack in a PDU buffer, if it is one.
    pub fn of(pdu: &[u8]) -> Option<SentFack> {
        if pdu[offset::TYPE] != pdu_type::FACK {
            return None;
        }
        let number = pdu[offset::FRAGMENT_NUMBER..].first_chunk()?;
        let mask = pdu[HEADER_LENGTH + 16..].first_chunk()?;
        Some(SentFack {
            number: u16::from_le_bytes(*number),
            mask: u32::from_le_bytes(*mask),
        })
    }

    /// How far the fragments are held that it tells of. In the middle is also where the last one is
    /// not known.
    pub fn name(self, after: &Incoming) -> String {
        let place = match self.number {
            NONE => "65535",
            number if after.last.map(u16::from) == Some(number) => "the last",
            _ => "in the middle",
        };
        let mask = if self.mask == 0 { "0" } else { "not 0" };
        format!("fack sent: g {place}, mask {mask}")
    }

    /// The boundaries that it reaches.
    pub fn boundaries(self) -> Vec<Boundary> {
        let highest_bit = self.mask.checked_ilog2().map(Boundary::FackMask);
        let number = (self.number != NONE).then_some(Boundary::FackNumber(self.number));
        number.into_iter().chain(highest_bit).collect()
    }
}

/// All that a fack of a side can say. Left out is what cannot be: what is put is held, so that a
/// fack of none has a mask, and nothing is held behind the last.
pub fn sent_fack_names(side: &str) -> Vec<String> {
    let all = [
        "g 65535, mask not 0",
        "g in the middle, mask 0",
        "g in the middle, mask not 0",
        "g the last, mask 0",
    ];
    all.map(|what| format!("{side} fack sent: {what}")).into()
}
