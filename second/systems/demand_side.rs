//! The part of demand 3 that is owed of both sides alike: what a refusal leaves, which tickets are
//! armed, and the bytes of the slot buffer.

use crate::bench::bench::{Bench, Outcome};
use crate::bench::memory::{MOST, SLOTS_FILL};
use crate::bench::post::Benched;
use crate::codec::pdu::{BODY_LIMIT, HEADER_LENGTH};
use crate::machines::effect::Effect;
use crate::machines::event::Event;
use crate::records::record::Record;
use crate::records::side::Side;
use crate::records::timer::Timer;
use crate::systems::demand::Demand;

/// What of the demand does not hold.
pub type Broken = String;

/// What the books know of a side.
pub struct SideBook<S: Side> {
    slots: Vec<u8>,
    /// The ticket that each timer is armed with.
    armed: Vec<(S::TimerKind, Timer)>,
}

/// An event that has taken place on the bench.
pub struct Step<'a, S: Side> {
    pub before: &'a Record<S>,
    pub event: &'a Event<'a, S>,
    /// That of a start or reply.
    pub message: &'a [u8],
    pub outcome: &'a Outcome,
    pub bench: &'a Bench,
}

/// What the demand says of one side otherwise than of the other.
pub trait Demanded: Benched {
    /// What the books know of the side.
    fn book(books: &mut Demand) -> &mut SideBook<Self>;

    /// Whether a fragment was put in a step that gave the effect.
    fn is_put(datagram: &[u8], after: &Record<Self>, effect: &Effect) -> bool;

    /// Whether the call is over in the state.
    fn is_over(state: Self::State) -> bool;

    /// Whether the timer is the one that is armed in an event that arms one.
    fn is_armed_in(event: &Event<Self>, kind: Self::TimerKind) -> bool;

    /// Whether an event that is done disarms the timer, whatever the state behind it.
    fn is_disarmed_in(event: &Event<Self>, kind: Self::TimerKind) -> bool;

    /// What only this side owes in a step that gave the effect.
    fn check_own(books: &mut Demand, step: &Step<Self>, effect: &Effect) -> Result<(), Broken>;
}

/// Tells what is broken, unless it holds.
pub fn check(holds: bool, broken: &str) -> Result<(), Broken> {
    if holds {
        Ok(())
    } else {
        Err(broken.into())
    }
}

/// A part of a datagram of this program, which is always little-endian.
fn u16_of(datagram: &[u8], at: usize) -> usize {
    usize::from(u16::from_le_bytes([datagram[at], datagram[at + 1]]))
}

/// Whether a datagram that can be read has the type.
pub fn is_of_type(pdu_type: u8, datagram: &[u8]) -> bool {
    datagram[1] == pdu_type
}

fn u32_of(datagram: &[u8], at: usize) -> usize {
    u16_of(datagram, at) | u16_of(datagram, at + 2) << 16
}

/// The call number of a datagram.
pub fn number_of(datagram: &[u8]) -> usize {
    u32_of(datagram, 64)
}

/// The number of a cancel.
pub fn cancel_number_of(datagram: &[u8]) -> usize {
    u32_of(datagram, 84)
}

/// Puts the fragment of a datagram into the slots.
fn put(datagram: &[u8], slots: &mut [u8]) {
    let body = &datagram[HEADER_LENGTH..];
    let begin = BODY_LIMIT * u16_of(datagram, 76);
    slots[begin..begin + body.len()].copy_from_slice(body);
}

impl<S: Demanded> SideBook<S> {
    /// The book of a fresh side.
    pub fn new() -> SideBook<S> {
        SideBook {
            slots: vec![SLOTS_FILL; MOST.slots],
            armed: S::TIMERS.iter().map(|kind| (*kind, None)).collect(),
        }
    }

    /// Arming raises the counter, and the timer that the event arms has the ticket that this gives;
    /// a state that does not name a timer disarms it.
    fn follow_timers(&mut self, step: &Step<S>) -> Result<(), Broken> {
        let after = step.bench.record::<S>();
        let is_armed_afresh = step.before.tickets != after.tickets;
        let is_over = S::is_over(after.state);
        for (kind, timer) in &mut self.armed {
            check(
                !is_over || after.timer_of(*kind).is_none(),
                "a call is over with a timer armed",
            )?;
            if !S::names(after.state, *kind) || S::is_disarmed_in(step.event, *kind) {
                *timer = None;
            } else if is_armed_afresh && S::is_armed_in(step.event, *kind) {
                *timer = Some(after.tickets.counter);
            }
            let is_same = after.timer_of(*kind) == *timer;
            check(is_same, "a side has other tickets armed")?;
        }
        Ok(())
    }

    /// Follows an event that is not refused.
    pub fn done(&mut self, step: &Step<S>, effect: &Effect) -> Result<(), Broken> {
        let after = step.bench.record::<S>();
        match step.event {
            Event::Arrive { datagram } if S::is_put(datagram, after, effect) => {
                put(datagram, &mut self.slots);
            }
            _ => {}
        }
        self.follow_timers(step)?;
        check(after.is_sound(), "a record breaks its rules")
    }

    /// A timer with another ticket than the armed one is refused.
    pub fn check_late(&self, step: &Step<S>) -> Result<(), Broken> {
        let is_late = match step.event {
            Event::Timer { kind, ticket } => !self.armed.contains(&(*kind, Some(*ticket))),
            _ => false,
        };
        check(!is_late || step.outcome.is_err(), "a late timer is taken")
    }

    /// The slot buffer has only the bytes that were put.
    pub fn check_slots(&self, bench: &Bench) -> Result<(), Broken> {
        let slots = bench.memory::<S>().slots.whole();
        check(self.slots == slots, "a slot buffer has other bytes")
    }
}
