//! The places of a record whose bytes mean nothing: the ticket of a timer that is not armed, the
//! length of a slot that is not held, the status where no fault is held.

use crate::door::layout;
use crate::door::places::{put, RecordBytes};
use crate::door::record_bytes::{state_of, Stored};
use crate::generate::random::Random;
use crate::records::client::ClientSide;
use crate::records::server::{ServerSide, State};

/// A place and its length.
pub type Place = (usize, usize);

/// A side with such places.
pub trait Meaningless: Stored {
    /// The timers: the place of the mark, and that of the ticket.
    const TIMER_PLACES: &'static [Place];

    /// The place that means something in one state only.
    const STATUS_PLACE: Option<Place>;

    /// The same place, where it means nothing.
    fn place_of_state(bytes: &RecordBytes) -> Option<Place>;

    /// All places that mean nothing in a record.
    fn places(bytes: &RecordBytes) -> Vec<Place> {
        let slots = (0..32).map(|number| layout::SLOTS + layout::SLOT_LENGTH * number);
        let missing = slots.filter(|at| bytes[at + layout::SLOT_HELD] == 0);
        let mut places: Vec<Place> = missing.map(|at| (at, 2)).collect();
        let disarmed = Self::TIMER_PLACES
            .iter()
            .filter(|timer| bytes[timer.0] == 0);
        places.extend(disarmed.map(|timer| (timer.1, 8)));
        places.extend(Self::place_of_state(bytes));
        places
    }

    /// Some of the places get any bytes.
    fn scramble(bytes: &mut RecordBytes, random: &mut Random) {
        for (at, length) in Self::places(bytes) {
            if random.percent(30) {
                let noise = random.u64().to_le_bytes();
                put(bytes, at, &noise[..length]);
            }
        }
    }
}

impl Meaningless for ClientSide {
    const TIMER_PLACES: &'static [Place] = &[
        (layout::FIRST_ARMED, layout::FIRST_TICKET),
        (layout::SECOND_ARMED, layout::SECOND_TICKET),
        (layout::THIRD_ARMED, layout::THIRD_TICKET),
    ];

    const STATUS_PLACE: Option<Place> = None;

    fn place_of_state(_: &RecordBytes) -> Option<Place> {
        None
    }
}

impl Meaningless for ServerSide {
    const TIMER_PLACES: &'static [Place] = &[(layout::FIRST_ARMED, layout::FIRST_TICKET)];

    const STATUS_PLACE: Option<Place> = Some((layout::STATUS, 4));

    fn place_of_state(bytes: &RecordBytes) -> Option<Place> {
        let holds_a_fault = state_of::<ServerSide>(bytes) == Some(State::HeldFault);
        Self::STATUS_PLACE.filter(|_| !holds_a_fault)
    }
}
