//! What a side is to the code that serves both.

use crate::records::record::Record;
use crate::records::rule::Rule;
use crate::records::timer::Timer;
use std::fmt::Debug;

/// A side of a call: its record, its timers and its events, as far as they differ from the other's.
pub trait Side: Copy + Debug + Eq + 'static {
    /// The states of its record.
    type State: Copy + Debug + Eq + 'static;
    /// The fields of its record that the other side does not have.
    type Own: Clone + Debug + Eq;
    /// Its timers by kind.
    type TimerKind: Copy + Debug + Eq + 'static;
    /// The events that the other side does not have.
    type OwnEvent: Clone + Debug + Eq;

    /// How the side is told.
    const WORDS: Words;
    /// The states in the order of their numbers in a record's first byte.
    const STATES: &'static [Self::State];
    /// The state of a fresh record. Number and call mean nothing in it.
    const FRESH: Self::State;
    /// The state in which the message that is out is being sent.
    const SENDING: Self::State;
    /// All kinds of its timers.
    const TIMERS: &'static [Self::TimerKind];
    /// The rules of its counts, which stand before those of the messages.
    const COUNT_RULES: &'static [Rule];
    /// The rules of its timers, which stand behind those of the messages.
    const TIMER_RULES: &'static [Rule];

    /// The state's name as it is printed.
    fn state_name(state: Self::State) -> &'static str;

    /// Whether a state is one that names the timer.
    fn names(state: Self::State, kind: Self::TimerKind) -> bool;

    /// The ticket that a timer is armed with, if it is armed.
    fn timer_of(record: &Record<Self>, kind: Self::TimerKind) -> Timer;

    /// Whether a message is out in the state.
    fn message_out(state: Self::State) -> MessageOut;

    /// Whether the record breaks a rule of its counts or timers.
    fn breaks_own(record: &Record<Self>, rule: Rule) -> bool;

    /// Whether a record in the state can break a rule of its timers and no other.
    fn can_break_alone(rule: Rule, state: Self::State) -> bool;
}

/// Whether a message is out in a state.
#[derive(Clone, Copy, Debug, PartialEq, Eq)]
pub enum MessageOut {
    Never,
    Always,
    /// No field tells which of the two.
    Either,
}

/// The words that differ between the sides.
#[derive(Clone, Copy)]
pub struct Words {
    pub side: &'static str,
    /// The event that brings a message to send.
    pub first_event: &'static str,
    /// What takes the side to another call number.
    pub beginning: &'static str,
    /// The PDU that a fragment is put from.
    pub received: &'static str,
    /// The events that raise the serial, and those that arm a timer.
    pub raising: &'static [&'static str],
    pub arming: &'static [&'static str],
}
