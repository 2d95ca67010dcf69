//! The events of a side.

use crate::records::side::Side;

/// An event of a side, with what is given to it.
#[derive(Clone, Debug)]
pub enum Event<'a, S: Side> {
    Transmit {
        message: &'a [u8],
    },
    Arrive {
        datagram: &'a [u8],
    },
    Timer {
        kind: S::TimerKind,
        ticket: u64,
    },
    /// One that only this side has.
    Own(S::OwnEvent),
}
