//! The record of either side: the parts that both have, and their rules.

use crate::codec::pdu::Uuid;
use crate::records::call::Call;
use crate::records::incoming::Incoming;
use crate::records::outgoing::Outgoing;
use crate::records::rule::{Rule, MESSAGE_RULES};
use crate::records::side::{MessageOut, Side};
use crate::records::timer::{Tickets, Timer};

/// The record of a side.
#[derive(Clone, Debug, PartialEq, Eq)]
pub struct Record<S: Side> {
    pub state: S::State,
    pub activity: Uuid,
    /// Means nothing in QUEUED and in IDLE fresh, like the call.
    pub number: u32,
    pub call: Call,
    pub outgoing: Outgoing,
    pub incoming: Incoming,
    /// How often a message was sent again: at the client after a nocall, at the server by RESEND.
    pub resends: u8,
    pub tickets: Tickets,
    /// The fields that only this side has.
    pub own: S::Own,
}

impl<S: Side> Record<S> {
    /// A record with no number, counts 0 and nothing held.
    pub fn fresh_of(activity: Uuid, ticket_counter: u64, own: S::Own) -> Record<S> {
        Record {
            state: S::FRESH,
            activity,
            number: 0,
            call: Call::none(),
            outgoing: Outgoing::none(),
            incoming: Incoming::empty(),
            resends: 0,
            tickets: Tickets {
                counter: ticket_counter,
            },
            own,
        }
    }

    /// All rules of the side, in the order in which they are told.
    pub fn rules() -> impl Iterator<Item = Rule> {
        let rules = S::COUNT_RULES.iter().chain(&MESSAGE_RULES);
        rules.chain(S::TIMER_RULES).copied()
    }

    /// Whether the record breaks the rule.
    fn breaks(&self, rule: Rule) -> bool {
        let out = &self.outgoing;
        match rule {
            Rule::Sent => out.sent > out.fragments,
            Rule::SentBelow => self.state == S::SENDING && out.sent == out.fragments,
            Rule::Acknowledged => out.acknowledged > out.fragments,
            Rule::FragmentCount => !self.fragment_count_is_right(),
            Rule::KnownLast => self.incoming.last_is_too_high(),
            Rule::HeldLength => self.incoming.holds_one_too_long(),
            Rule::HeldAboveLast => self.incoming.holds_one_above_the_last(),
            _ => S::breaks_own(self, rule),
        }
    }

    /// The count is that of the message's length where one is out, else 0.
    fn fragment_count_is_right(&self) -> bool {
        let is_none = self.outgoing.fragments == 0;
        match S::message_out(self.state) {
            MessageOut::Never => is_none,
            MessageOut::Always => self.outgoing.count_is_the_lengths(),
            MessageOut::Either => is_none || self.outgoing.count_is_the_lengths(),
        }
    }

    /// All rules that the record breaks.
    pub fn broken_rules(&self) -> Vec<Rule> {
        Self::rules().filter(|rule| self.breaks(*rule)).collect()
    }

    /// Whether the record breaks no rule.
    pub fn is_sound(&self) -> bool {
        !Self::rules().any(|rule| self.breaks(rule))
    }

    /// Whether a record in the state can break the rule and no other.
    pub fn can_break_alone(rule: Rule, state: S::State) -> bool {
        match rule {
            Rule::SentBelow => state == S::SENDING,
            _ => S::can_break_alone(rule, state),
        }
    }

    /// The ticket that a timer is armed with, if it is armed.
    pub fn timer_of(&self, kind: S::TimerKind) -> Timer {
        S::timer_of(self, kind)
    }

    /// Whether the timer is armed in a state that does not name it.
    pub fn is_armed_elsewhere(&self, kind: S::TimerKind) -> bool {
        self.timer_of(kind).is_some() && !S::names(self.state, kind)
    }

    /// Whether the timer is armed with a ticket above the counter.
    pub fn is_armed_above(&self, kind: S::TimerKind) -> bool {
        !self.tickets.reach(self.timer_of(kind))
    }
}
