//! The server record: its states and its rules.

use crate::codec::pdu::Uuid;
use crate::records::record::Record;
use crate::records::rule::Rule;
use crate::records::side::{MessageOut, Side, Words};
use crate::records::timer::{Timer, RETRY_LIMIT};

#[derive(Clone, Copy, Debug, PartialEq, Eq)]
pub enum State {
    IdleFresh,
    IdleSpent,
    IdleRepeatable,
    Collect,
    Running,
    Replying,
    HeldData,
    HeldFault,
}

/// The states in the order of their numbers in a record's first byte.
pub const STATES: [State; 8] = [
    State::IdleFresh,
    State::IdleSpent,
    State::IdleRepeatable,
    State::Collect,
    State::Running,
    State::Replying,
    State::HeldData,
    State::HeldFault,
];

impl State {
    /// The name without the status of a fault that is held.
    pub fn name(self) -> &'static str {
        match self {
            State::IdleFresh => "IDLE_FRESH",
            State::IdleSpent => "IDLE_SPENT",
            State::IdleRepeatable => "IDLE_REPEATABLE",
            State::Collect => "COLLECT",
            State::Running => "RUNNING",
            State::Replying => "REPLYING",
            State::HeldData => "HELD_DATA",
            State::HeldFault => "HELD_FAULT",
        }
    }

    pub fn is_idle(self) -> bool {
        matches!(
            self,
            State::IdleFresh | State::IdleSpent | State::IdleRepeatable
        )
    }

    /// HELD, with data or a fault. It is the state that names the RESEND timer.
    pub fn is_held(self) -> bool {
        matches!(self, State::HeldData | State::HeldFault)
    }

    /// The states in which a cancel of the call is answered.
    pub fn answers_cancel(self) -> bool {
        !self.is_idle()
    }

    /// The states in which an answer has been given and may still be wanted.
    pub fn has_answer(self) -> bool {
        self == State::Replying || self.is_held()
    }
}

/// The only timer of a server.
#[derive(Clone, Copy, Debug, PartialEq, Eq)]
pub struct Resend;

/// The events that only a server has, in which its call is answered.
#[derive(Clone, Debug, PartialEq, Eq)]
pub enum Answer {
    Reply { length: u32 },
    Fault { status: u32 },
}

/// The fields that only a server record has.
#[derive(Clone, Debug, PartialEq, Eq)]
pub struct ServerFields {
    /// Of the fault in HELD with a fault; means nothing in another state.
    pub status: u32,
    pub boot: u32,
    pub resend: Timer,
    /// The cancel number last seen: that of the last cancel noticed since the begin, else 0.
    pub cancel_number: u32,
}

/// The side that answers calls.
#[derive(Clone, Copy, Debug, PartialEq, Eq)]
pub struct ServerSide;

/// The record of a server.
pub type Server = Record<ServerSide>;

impl Server {
    /// A server that has had no call.
    pub fn fresh(activity: Uuid, boot: u32, ticket_counter: u64) -> Server {
        let own = ServerFields {
            status: 0,
            boot,
            resend: None,
            cancel_number: 0,
        };
        Server::fresh_of(activity, ticket_counter, own)
    }
}

impl Side for ServerSide {
    type State = State;
    type Own = ServerFields;
    type TimerKind = Resend;
    type OwnEvent = Answer;

    const WORDS: Words = Words {
        side: "server",
        first_event: "reply",
        beginning: "request",
        received: "request",
        raising: &["transmit"],
        arming: &["transmit", "timer", "fault"],
    };
    const STATES: &'static [State] = &STATES;
    const FRESH: State = State::IdleFresh;
    const SENDING: State = State::Replying;
    const TIMERS: &'static [Resend] = &[Resend];
    const COUNT_RULES: &'static [Rule] = &[Rule::ResendCount];
    const TIMER_RULES: &'static [Rule] = &[Rule::ResendState, Rule::ResendTicket];

    fn state_name(state: State) -> &'static str {
        state.name()
    }

    fn names(state: State, _: Resend) -> bool {
        state.is_held()
    }

    fn timer_of(server: &Server, _: Resend) -> Timer {
        server.own.resend
    }

    /// A message is out from a reply to the next begin; before IDLE spent and IDLE repeatable a
    /// reply or a fault came.
    fn message_out(state: State) -> MessageOut {
        match state {
            State::IdleFresh | State::Collect | State::Running | State::HeldFault => {
                MessageOut::Never
            }
            State::Replying | State::HeldData => MessageOut::Always,
            State::IdleSpent | State::IdleRepeatable => MessageOut::Either,
        }
    }

    fn breaks_own(server: &Server, rule: Rule) -> bool {
        match rule {
            Rule::ResendCount => server.resends > RETRY_LIMIT,
            Rule::ResendState => server.is_armed_elsewhere(Resend),
            Rule::ResendTicket => server.is_armed_above(Resend),
            _ => false,
        }
    }

    fn can_break_alone(rule: Rule, state: State) -> bool {
        match rule {
            Rule::ResendState => !state.is_held(),
            Rule::ResendTicket => state.is_held(),
            _ => true,
        }
    }
}
