//! What the authors of both sides do alike: records, and events that meet them.

use crate::bench::post::Benched;
use crate::coverage::step::Counted;
use crate::generate::arriving::Arriving;
use crate::generate::author::Author;
use crate::generate::bytes::meaningless::Meaningless;
use crate::generate::parts::{break_fragment_count, break_incoming, break_outgoing};
use crate::generate::random::Random;
use crate::machines::event::Event;
use crate::records::outgoing::MESSAGE_LIMIT;
use crate::records::record::Record;
use crate::records::rule::Rule;
use crate::records::timer::Timer;

/// The longest message that is lent.
pub const LONGEST_LENT: u32 = 65_536;

/// The ticket that is given where no timer is armed.
const NO_TICKET: u64 = u64::MAX;

/// A side that events are made for.
pub trait Made: Benched + Counted + Meaningless {
    /// A record in the state that breaks no rule.
    fn sound_record(state: Self::State, random: &mut Random) -> Record<Self>;

    /// Breaks a rule of the counts or timers.
    fn break_own_rule(record: &mut Record<Self>, rule: Rule, random: &mut Random);

    /// All timers, to be changed.
    fn timers(own: &mut Self::Own) -> Vec<&mut Timer>;

    /// An event that mostly fits the state.
    fn any_event(author: &mut Author<Self>);
}

/// Records as they are made.
impl<S: Made> Record<S> {
    /// Sets the ticket counter; no timer is left with a ticket above it.
    pub fn set_counter(&mut self, counter: u64) {
        self.tickets.counter = counter;
        for timer in S::timers(&mut self.own) {
            *timer = timer.map(|ticket| ticket.min(counter));
        }
    }

    /// Lowers the ticket counter where it is at its last.
    pub fn leave_a_ticket(&mut self) {
        self.set_counter(self.tickets.counter.min(u64::MAX - 1));
    }

    /// Disarms all timers.
    pub fn disarm(&mut self) {
        for timer in S::timers(&mut self.own) {
            *timer = None;
        }
    }

    /// Breaks one rule of a sound record and no other; the state is one in which this can be.
    pub fn break_rule(&mut self, rule: Rule, random: &mut Random) {
        let is_broken = break_outgoing(&mut self.outgoing, rule, random)
            || break_incoming(&mut self.incoming, rule, random);
        if is_broken {
            return;
        }
        if rule == Rule::FragmentCount {
            let may_be_empty = self.state != S::SENDING;
            let message_out = S::message_out(self.state);
            break_fragment_count(&mut self.outgoing, message_out, may_be_empty, random);
        } else {
            S::break_own_rule(self, rule, random);
        }
    }

    /// Breaks one of the rules that can be broken alone.
    pub fn break_any_rule(&mut self, random: &mut Random) {
        let mut rules: Vec<Rule> = Self::rules().collect();
        rules.retain(|rule| Self::can_break_alone(*rule, self.state));
        self.break_rule(random.pick(&rules), random);
    }
}

/// The author of events of one side.
impl<S: Made> Author<S> {
    /// The record as it is now.
    pub fn record(&self) -> &Record<S> {
        self.bench.record()
    }

    /// The next event meets the record.
    pub fn set_record(&mut self, record: Record<S>) {
        self.set_record_of(record);
    }

    /// An event takes place, unless there are enough.
    pub fn event(&mut self, event: Event<S>) {
        // What it answers does not matter here; the record does.
        let _ = self.event_of(&event);
    }

    /// Transmits the message that is out, each time with the same bytes. Where there is none, the
    /// length is any that may be lent.
    pub fn transmit(&mut self) {
        let record = self.record();
        let limit = match record.state == S::SENDING {
            true => LONGEST_LENT,
            false => MESSAGE_LIMIT as u32,
        };
        let length = record.outgoing.length.min(limit);
        let seed = record.number as u8;
        self.transmit_of::<S>(length, seed);
    }

    /// Sends what there is to send.
    pub fn send_all(&mut self) {
        for _ in self.record().outgoing.sent..self.record().outgoing.fragments {
            self.transmit();
        }
    }

    /// A PDU arrives that is made for the record as it is now.
    pub fn arrive(&mut self, make: impl FnOnce(&Record<S>, &mut Random) -> Arriving) {
        let arriving = make(self.bench.record(), &mut self.random);
        self.arrive_datagram(&arriving.datagram());
    }

    /// A PDU of the record's call arrives.
    pub fn arrive_of_type(&mut self, pdu_type: u8) {
        self.arrive(|record, random| Arriving::of_type(pdu_type, record, random));
    }

    /// A datagram arrives as it is.
    pub fn arrive_datagram(&mut self, datagram: &[u8]) {
        self.event(Event::Arrive { datagram });
    }

    /// The ticket of the timer, or what its record says where it is not armed.
    fn right_ticket(&self, kind: S::TimerKind) -> u64 {
        self.record().timer_of(kind).unwrap_or(NO_TICKET)
    }

    /// The timer with the right ticket.
    pub fn timer(&mut self, kind: S::TimerKind) {
        let ticket = self.right_ticket(kind);
        self.event(Event::Timer { kind, ticket });
    }

    /// The timer with a ticket beside the right one.
    pub fn late_timer(&mut self, kind: S::TimerKind) {
        let right = self.right_ticket(kind);
        let ticket = self.random.pick(&[
            right.wrapping_sub(1),
            right.wrapping_add(1),
            right ^ 1 << 32,
        ]);
        self.event(Event::Timer { kind, ticket });
    }

    /// The timer with the ticket of another one.
    pub fn timer_of_another(&mut self, kind: S::TimerKind, other: S::TimerKind) {
        let ticket = self.right_ticket(other);
        self.event(Event::Timer { kind, ticket });
    }

    /// Asks for a fragment.
    pub fn hand_up(&mut self, number: u16) {
        self.hand_up_of::<S>(number);
    }
}
