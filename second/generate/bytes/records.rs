//! Bytes that are not readable as a record, each in a single way.

use crate::door::layout;
use crate::door::places::{put, RecordBytes};
use crate::door::record_bytes::Stored;
use crate::generate::bytes::meaningless::Meaningless;
use crate::generate::random::Random;
use std::fmt;

/// A way in which bytes are not readable.
#[derive(Clone, Copy, Debug, PartialEq, Eq)]
pub enum Way {
    /// A state that is not listed.
    State,
    /// A mark above 1 at the place.
    Mark(usize),
    /// A spare byte at the place that is not 0.
    Spare(usize),
    /// A count at the place that does not fit in one byte.
    Count(usize),
    /// A known last of 256 to 65534.
    KnownLast,
}

impl fmt::Display for Way {
    fn fmt(&self, to: &mut fmt::Formatter) -> fmt::Result {
        match self {
            Way::State => write!(to, "a state that is not listed"),
            Way::Mark(at) => write!(to, "a mark above 1 at {at}"),
            Way::Spare(at) => write!(to, "a spare byte at {at}"),
            Way::Count(at) => write!(to, "a count above 255 at {at}"),
            Way::KnownLast => write!(to, "a known last above 255"),
        }
    }
}

/// The places of the slots.
fn slots() -> impl Iterator<Item = usize> {
    (0..32).map(|number| layout::SLOTS + layout::SLOT_LENGTH * number)
}

/// All ways of a side.
pub fn ways<S: Meaningless>() -> Vec<Way> {
    let counts = [layout::FRAGMENTS, layout::SENT, layout::ACKNOWLEDGED];
    let spare = S::SPARE.iter().flat_map(|(from, to)| *from..*to);
    let mut ways = vec![Way::State, Way::KnownLast, Way::Mark(layout::IDEMPOTENT)];
    ways.extend(counts.map(Way::Count));
    ways.extend(S::TIMER_PLACES.iter().map(|timer| Way::Mark(timer.0)));
    ways.extend(spare.map(Way::Spare));
    ways.extend(slots().map(|at| Way::Mark(at + layout::SLOT_HELD)));
    ways.extend(slots().map(|at| Way::Spare(at + layout::SLOT_SPARE)));
    ways
}

impl Way {
    /// The bytes are not readable in this way. What is beside it stays as it is.
    pub fn spoil<S: Stored>(self, bytes: &mut RecordBytes, random: &mut Random) {
        let any = random.between(1, 255) as u8;
        match self {
            Way::State => {
                let listed = S::STATES.len();
                let another = random.between(listed, 255) as u8;
                bytes[layout::STATE] = random.pick(&[listed as u8, another, 255]);
            }
            Way::Mark(at) => bytes[at] = random.pick(&[2, 3, 128, any.max(2), 255]),
            Way::Spare(at) => bytes[at] = random.pick(&[1, any, 128]),
            Way::Count(at) => bytes[at + 1] = random.pick(&[1, any, 128]),
            Way::KnownLast => {
                let any = random.between(256, 65_534) as u16;
                let last = random.pick(&[256, any, 0xff00, 65_534]);
                put(bytes, layout::KNOWN_LAST, &last.to_le_bytes());
            }
        }
    }
}

/// A few bytes become anything.
pub fn change_some(bytes: &mut RecordBytes, random: &mut Random) {
    for _ in 0..random.pick(&[1, 1, 1, 2, 3, 8]) {
        // Every second place is before the slots and the UUIDs.
        let at = match random.percent(50) {
            true => random.between(0, layout::ACTIVITY - 1),
            false => random.between(0, layout::RECORD_LENGTH - 1),
        };
        bytes[at] = match random.between(0, 3) {
            0 => bytes[at] ^ 1 << random.between(0, 7),
            1 => bytes[at].wrapping_add(1),
            2 => random.pick(&[0, 1, 2, 5, 6, 31, 32, 33, 255]),
            _ => random.u8(),
        };
    }
}

/// Bytes that are anything; in most of them the state is listed and spare bytes are 0.
pub fn any_bytes<S: Meaningless>(random: &mut Random) -> RecordBytes {
    let mut bytes = [0; layout::RECORD_LENGTH];
    random.fill(&mut bytes);
    let good = random.between(0, 4);
    if good > 0 {
        bytes[layout::STATE] = random.between(0, S::STATES.len() - 1) as u8;
    }
    if good > 1 {
        for way in ways::<S>() {
            match way {
                Way::Spare(at) => bytes[at] = 0,
                Way::Mark(at) => bytes[at] &= 1,
                _ => {}
            }
        }
    }
    if good > 2 {
        for at in [
            layout::FRAGMENTS,
            layout::SENT,
            layout::ACKNOWLEDGED,
            layout::KNOWN_LAST,
        ] {
            bytes[at + 1] = 0;
        }
    }
    bytes
}
