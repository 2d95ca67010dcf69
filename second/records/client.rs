//! The client record: its states and its rules.

use crate::codec::pdu::Uuid;
use crate::records::call::Call;
use crate::records::record::Record;
use crate::records::rule::Rule;
use crate::records::side::{MessageOut, Side, Words};
use crate::records::timer::{Timer, RETRY_LIMIT};

#[derive(Clone, Copy, Debug, PartialEq, Eq)]
pub enum State {
    Queued,
    SendFrags,
    Dispatched,
    ReceiveFrags,
    AckPending,
    Complete,
    Fault,
}

/// The states in the order of their numbers in a record's first byte.
pub const STATES: [State; 7] = [
    State::Queued,
    State::SendFrags,
    State::Dispatched,
    State::ReceiveFrags,
    State::AckPending,
    State::Complete,
    State::Fault,
];

/// The states in which a call is under way.
pub const ACTIVE_STATES: [State; 3] = [State::SendFrags, State::Dispatched, State::ReceiveFrags];

impl State {
    pub fn name(self) -> &'static str {
        match self {
            State::Queued => "QUEUED",
            State::SendFrags => "SEND_FRAGS",
            State::Dispatched => "DISPATCHED",
            State::ReceiveFrags => "RECEIVE_FRAGS",
            State::AckPending => "ACK_PENDING",
            State::Complete => "COMPLETE",
            State::Fault => "FAULT",
        }
    }

    pub fn is_active(self) -> bool {
        ACTIVE_STATES.contains(&self)
    }

    /// The states in which a call may start.
    pub fn may_start(self) -> bool {
        !self.is_active()
    }

    pub fn names(self, kind: TimerKind) -> bool {
        match kind {
            TimerKind::Wait => matches!(self, State::Dispatched | State::ReceiveFrags),
            TimerKind::Ack => self == State::AckPending,
            TimerKind::Cancel => self.is_active(),
        }
    }
}

#[derive(Clone, Copy, Debug, PartialEq, Eq)]
pub enum TimerKind {
    Wait,
    Ack,
    Cancel,
}

/// All timers of a client.
pub const TIMERS: [TimerKind; 3] = [TimerKind::Wait, TimerKind::Ack, TimerKind::Cancel];

impl TimerKind {
    pub fn name(self) -> &'static str {
        match self {
            TimerKind::Wait => "WAIT",
            TimerKind::Ack => "ACK",
            TimerKind::Cancel => "CANCEL",
        }
    }
}

/// The events that only a client has.
#[derive(Clone, Debug, PartialEq, Eq)]
pub enum ClientEvent {
    Start(Start),
    /// The local cancel.
    Cancel,
}

/// A call is started with a message of so many bytes.
#[derive(Clone, Debug, PartialEq, Eq)]
pub struct Start {
    pub call: Call,
    pub length: u32,
}

/// The fields that only a client record has.
#[derive(Clone, Debug, PartialEq, Eq)]
pub struct ClientFields {
    /// The WAIT count.
    pub waits: u8,
    pub wait: Timer,
    pub ack: Timer,
    pub cancel: Timer,
    /// That of the last local cancel since the start, else 0.
    pub cancel_number: u32,
}

/// The side that starts calls.
#[derive(Clone, Copy, Debug, PartialEq, Eq)]
pub struct ClientSide;

/// The record of a client.
pub type Client = Record<ClientSide>;

impl Client {
    /// A client that has had no call.
    pub fn fresh(activity: Uuid, ticket_counter: u64) -> Client {
        let own = ClientFields {
            waits: 0,
            wait: None,
            ack: None,
            cancel: None,
            cancel_number: 0,
        };
        Client::fresh_of(activity, ticket_counter, own)
    }
}

impl Side for ClientSide {
    type State = State;
    type Own = ClientFields;
    type TimerKind = TimerKind;
    type OwnEvent = ClientEvent;

    const WORDS: Words = Words {
        side: "client",
        first_event: "start",
        beginning: "start",
        received: "response",
        raising: &["transmit", "timer"],
        arming: &["transmit", "arrive", "timer", "cancel"],
    };
    const STATES: &'static [State] = &STATES;
    const FRESH: State = State::Queued;
    const SENDING: State = State::SendFrags;
    const TIMERS: &'static [TimerKind] = &TIMERS;
    const COUNT_RULES: &'static [Rule] = &[Rule::WaitCount, Rule::Resends];
    const TIMER_RULES: &'static [Rule] = &[
        Rule::WaitState,
        Rule::AckState,
        Rule::CancelState,
        Rule::WaitTicket,
        Rule::AckTicket,
        Rule::CancelTicket,
    ];

    fn state_name(state: State) -> &'static str {
        state.name()
    }

    fn names(state: State, kind: TimerKind) -> bool {
        state.names(kind)
    }

    fn timer_of(client: &Client, kind: TimerKind) -> Timer {
        match kind {
            TimerKind::Wait => client.own.wait,
            TimerKind::Ack => client.own.ack,
            TimerKind::Cancel => client.own.cancel,
        }
    }

    fn message_out(state: State) -> MessageOut {
        match state {
            State::Queued => MessageOut::Never,
            _ => MessageOut::Always,
        }
    }

    fn breaks_own(client: &Client, rule: Rule) -> bool {
        match rule {
            Rule::WaitCount => client.own.waits > RETRY_LIMIT,
            Rule::Resends => client.resends > RETRY_LIMIT,
            Rule::WaitState => client.is_armed_elsewhere(TimerKind::Wait),
            Rule::AckState => client.is_armed_elsewhere(TimerKind::Ack),
            Rule::CancelState => client.is_armed_elsewhere(TimerKind::Cancel),
            Rule::WaitTicket => client.is_armed_above(TimerKind::Wait),
            Rule::AckTicket => client.is_armed_above(TimerKind::Ack),
            Rule::CancelTicket => client.is_armed_above(TimerKind::Cancel),
            _ => false,
        }
    }

    fn can_break_alone(rule: Rule, state: State) -> bool {
        match rule {
            Rule::WaitState => !state.names(TimerKind::Wait),
            Rule::AckState => !state.names(TimerKind::Ack),
            Rule::CancelState => !state.names(TimerKind::Cancel),
            Rule::WaitTicket => state.names(TimerKind::Wait),
            Rule::AckTicket => state.names(TimerKind::Ack),
            Rule::CancelTicket => state.names(TimerKind::Cancel),
            _ => true,
        }
    }
}
