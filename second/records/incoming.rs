//! The message received: which of its fragments are held, and which is the last.

use crate::codec::fack::{Held, FRAGMENTS};
use crate::codec::pdu::{flags1, pdu_type, Header, Pdu, BODY_LIMIT};

const SLOTS: usize = FRAGMENTS as usize;

/// Fragment f lies in the slot buffer at 1,392 f.
pub const SLOT_BUFFER_LENGTH: usize = SLOTS * BODY_LIMIT;

#[derive(Clone, Debug, PartialEq, Eq)]
pub struct Incoming {
    /// The lengths of the fragments that are held.
    pub slots: [Option<u16>; SLOTS],
    /// The known last.
    pub last: Option<u8>,
}

/// What the header of a request or response says of its fragment.
#[derive(Clone, Copy, Debug, PartialEq, Eq)]
pub struct Fragment {
    pub number: u16,
    pub is_last: bool,
    /// Its number is above 31, or is not 0 although the fragment bit is clear.
    pub is_impossible: bool,
}

impl Fragment {
    pub fn of(header: &Header) -> Fragment {
        let number = header.fragment_number;
        let is_one_of_several = header.flags1 & flags1::FRAGMENT != 0;
        Fragment {
            number,
            is_last: header.flags1 & flags1::LAST_FRAGMENT != 0 || !is_one_of_several,
            is_impossible: u32::from(number) >= FRAGMENTS || !is_one_of_several && number != 0,
        }
    }
}

/// True of a request or response with a number that its fragment cannot have.
pub fn has_impossible_fragment(header: &Header) -> bool {
    matches!(header.pdu_type, pdu_type::REQUEST | pdu_type::RESPONSE)
        && Fragment::of(header).is_impossible
}

impl Incoming {
    pub fn empty() -> Incoming {
        Incoming {
            slots: [None; SLOTS],
            last: None,
        }
    }

    /// The numbers held, from the lowest up, with their lengths.
    pub fn held_fragments(&self) -> impl Iterator<Item = (u8, u16)> + '_ {
        (0..)
            .zip(&self.slots)
            .filter_map(|(number, slot)| slot.map(|length| (number, length)))
    }

    pub fn held(&self) -> Held {
        Held(
            self.held_fragments()
                .fold(0, |word, (number, _)| word | 1 << number),
        )
    }

    pub fn holds(&self, number: u16) -> bool {
        matches!(self.slots.get(usize::from(number)), Some(Some(_)))
    }

    /// The contradictions that a fragment can be in: above the known last; a last one below one
    /// held; another known last.
    pub fn contradicts(&self, fragment: Fragment) -> bool {
        let known_last = self.last.map(u16::from);
        let is_above_last = known_last.is_some_and(|last| fragment.number > last);
        let is_below_one_held = self
            .held_fragments()
            .any(|(held, _)| u16::from(held) > fragment.number);
        let is_another_last = known_last.is_some_and(|last| fragment.number != last);
        is_above_last || fragment.is_last && (is_below_one_held || is_another_last)
    }

    /// The record's part of a put; one with a number above 31 changes nothing.
    pub fn put(&mut self, fragment: Fragment, length: u16) {
        let number = usize::from(fragment.number);
        if number >= SLOTS {
            return;
        }
        self.slots[number] = Some(length);
        if fragment.is_last {
            self.last = Some(number as u8);
        }
    }

    /// The fragment of a PDU is put, into the slot buffer too.
    pub fn put_pdu(&mut self, pdu: &Pdu, slot_buffer: &mut [u8]) {
        let fragment = Fragment::of(&pdu.header);
        let begin = usize::from(fragment.number) * BODY_LIMIT;
        slot_buffer[begin..begin + pdu.body.len()].copy_from_slice(pdu.body);
        self.put(fragment, pdu.body.len() as u16);
    }

    /// All to the last are held.
    pub fn is_complete(&self) -> bool {
        self.last
            .is_some_and(|last| self.held().contiguous() > u32::from(last))
    }

    /// The part of the slot buffer of one of the contiguous fragments, empty for another number.
    pub fn part<'a>(&self, number: u8, slot_buffer: &'a [u8]) -> &'a [u8] {
        let number = usize::from(number);
        let begin = number * BODY_LIMIT;
        match self.slots.get(number) {
            Some(Some(length)) if number < self.held().contiguous() as usize => {
                &slot_buffer[begin..begin + usize::from(*length)]
            }
            _ => &[],
        }
    }

    pub fn last_is_too_high(&self) -> bool {
        self.last.is_some_and(|last| usize::from(last) >= SLOTS)
    }

    pub fn holds_one_too_long(&self) -> bool {
        self.held_fragments()
            .any(|(_, length)| usize::from(length) > BODY_LIMIT)
    }

    pub fn holds_one_above_the_last(&self) -> bool {
        self.last
            .is_some_and(|last| self.held_fragments().any(|(number, _)| number > last))
    }
}
