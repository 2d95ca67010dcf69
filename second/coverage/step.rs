//! Counts what an event of either side reaches: the row of document 01's table, the answer, pairs
//! of grounds, rules broken alone, and boundaries.

use crate::bench::memory::Lengths;
use crate::codec::fack;
use crate::codec::pdu::{offset, pdu_type, read, Pdu};
use crate::coverage::boundary::Boundary;
use crate::coverage::codec::order_name;
use crate::coverage::counts::Counts;
use crate::coverage::fack::SentFack;
use crate::coverage::grounds::arrive_grounds;
use crate::coverage::lent::count_lent;
use crate::coverage::side::{notice_name, type_name, Reached};
use crate::coverage::system::Calls;
use crate::machines::effect::Effect;
use crate::machines::event::Event;
use crate::machines::machine::Machine;
use crate::records::outgoing::acknowledged_by;
use crate::records::record::Record;
use crate::records::side::Side;

/// An event with the records before and after it.
pub struct Step<'a, S: Side> {
    pub event: &'a Event<'a, S>,
    pub before: &'a Record<S>,
    pub after: &'a Record<S>,
    pub answer: u8,
    pub effect: Effect,
    /// The PDU buffer after it.
    pub pdu: &'a [u8],
    pub lent: Lengths,
}

/// What is counted of one side otherwise than of the other.
pub trait Counted: Machine {
    /// The name of an event that only this side has.
    fn own_event_name(event: &Self::OwnEvent) -> &'static str;

    /// The length of the message that an event brings. One that brings none is lent a PDU buffer.
    fn message_length(event: &Self::OwnEvent) -> Option<u32>;

    /// How a timer is told that is done without a ticket left.
    fn timer_name(kind: Self::TimerKind) -> &'static str;

    /// How a PDU sent is told, behind its type.
    fn sent_mark(flags1: u8) -> &'static str;

    /// The row of an event that is done.
    fn row_name(step: &Step<Self>) -> String;

    /// The row of a PDU that is taken.
    fn arrive_row(pdu: &Pdu, step: &Step<Self>) -> String;

    /// What only this side counts of a row that is done.
    fn count_row(step: &Step<Self>, row: &str, counts: &mut Counts);

    /// What is counted of the call where the event is done and both sides are joined.
    fn count_in_system(step: &Step<Self>, calls: &mut Calls, counts: &mut Counts);

    /// What only this side counts of an event, and of the PDU that arrives in it.
    fn count_own(step: &Step<Self>, pdu: Option<&Pdu>, counts: &mut Counts);
}

/// The name of an event.
pub fn event_name<S: Counted>(event: &Event<S>) -> &'static str {
    match event {
        Event::Transmit { .. } => "transmit",
        Event::Arrive { .. } => "arrive",
        Event::Timer { .. } => "timer",
        Event::Own(event) => S::own_event_name(event),
    }
}

/// Counts what an event reaches.
pub fn count_event<S: Counted>(step: &Step<S>, is_system: bool, counts: &mut Counts) {
    let (side, name, answer) = (S::WORDS.side, event_name(step.event), step.answer);
    let state = S::state_name(step.before.state);
    let reached = Reached { is_system };
    counts.add_pairs(side, name, &grounds(step));
    counts.add(format_args!("{side}-{name}-answer-{answer}-in-{state}"));
    reached.count(format_args!("{side}-{name}-answer-{answer}"), counts);
    match answer {
        0 => count_done(step, &reached, counts),
        2 => count_broken_rule(step.before, name, counts),
        _ => {}
    }
    count_lent(step, counts);
    count_boundaries(step, counts);
}

/// Counts the rule that a record breaks, if it breaks a single one.
pub fn count_broken_rule<S: Counted>(record: &Record<S>, event: &str, counts: &mut Counts) {
    if let [rule] = record.broken_rules()[..] {
        let side = S::WORDS.side;
        let broken = rule.broken_name();
        let state = S::state_name(record.state);
        counts.add(format_args!("{side} rule alone: {broken} in {state}"));
        counts.add(format_args!("{side} rule alone: {broken} at {event}"));
    }
}

/// Counts what an event reaches that is not refused.
fn count_done<S: Counted>(step: &Step<S>, reached: &Reached, counts: &mut Counts) {
    let side = S::WORDS.side;
    let [from, to] = [step.before.state, step.after.state].map(S::state_name);
    let row = row_name(step);
    reached.count(format_args!("{row}"), counts);
    S::count_row(step, &row, counts);
    reached.count(format_args!("{side} {from} to {to}"), counts);
    if step.before.tickets.are_used_up() {
        let name = done_name(step.event);
        counts.add(format_args!("{side} done without a ticket left: {name}"));
    }
    if let Some(notice) = step.effect.notice {
        let name = notice_name(notice);
        reached.count(format_args!("{side} notice {name}"), counts);
    }
    if step.effect.pdu_length.is_some() {
        let kind = type_name(step.pdu[offset::TYPE]);
        let mark = S::sent_mark(step.pdu[offset::FLAGS1]);
        counts.add(format_args!("{side} sends {kind}{mark}"));
    }
    if let Some(fack) = sent_fack(step) {
        let name = fack.name(&step.after.incoming);
        reached.count(format_args!("{side} {name}"), counts);
    }
}

/// The fack that an event sends, if it sends one.
fn sent_fack<S: Counted>(step: &Step<S>) -> Option<SentFack> {
    step.effect.pdu_length.and_then(|_| SentFack::of(step.pdu))
}

/// How an event is told that is done without a ticket left.
fn done_name<S: Counted>(event: &Event<S>) -> &'static str {
    match event {
        Event::Arrive { datagram } => type_name(datagram[offset::TYPE]),
        Event::Timer { kind, .. } => S::timer_name(*kind),
        _ => event_name(event),
    }
}

/// The row of an event that is done.
fn row_name<S: Counted>(step: &Step<S>) -> String {
    let Event::Arrive { datagram } = step.event else {
        return S::row_name(step);
    };
    match read(datagram) {
        Ok(pdu) => S::arrive_row(&pdu, step),
        Err(_) => format!("{} arrive: done although it cannot be read", S::WORDS.side),
    }
}

/// All grounds that an event gives, not only the one that decides.
fn grounds<S: Counted>(step: &Step<S>) -> Vec<u8> {
    let record = step.before;
    let Lengths { pdu, slots, .. } = step.lent;
    match step.event {
        Event::Transmit { message } => record.transmit_grounds(message.len(), pdu).numbers(),
        Event::Timer { kind, ticket } => record.timer_grounds(*kind, *ticket, pdu).numbers(),
        Event::Arrive { datagram } => arrive_grounds(datagram, |datagram| {
            record.arrive_grounds(datagram, slots, pdu).numbers()
        }),
        Event::Own(event) => S::own_grounds(record, event, pdu).numbers(),
    }
}

/// Counts boundaries, and what the PDU that arrives reaches.
fn count_boundaries<S: Counted>(step: &Step<S>, counts: &mut Counts) {
    for boundary in boundaries(step) {
        counts.add_name(&boundary.name(&S::WORDS));
    }
    let pdu = match step.event {
        Event::Arrive { datagram } => read(datagram).ok(),
        _ => None,
    };
    if let Some(pdu) = &pdu {
        count_pdu(pdu, step, counts);
    }
    S::count_own(step, pdu.as_ref(), counts);
}

/// The boundaries that a step reaches, but for those of a PDU.
fn boundaries<S: Counted>(step: &Step<S>) -> Vec<Boundary> {
    let mut found = Vec::new();
    match step.event {
        Event::Own(event) if matches!(step.answer, 0 | 1) => {
            found.extend(S::message_length(event).map(Boundary::MessageLength));
        }
        Event::Transmit { message } if matches!(step.answer, 0 | 1) => {
            found.push(Boundary::TransmitLength(message.len() as u32, step.answer));
        }
        Event::Timer { kind, .. } if step.answer == 18 => {
            found.push(Boundary::LateTimer(step.before.timer_of(*kind).is_some()));
        }
        _ => {}
    }
    let name = event_name(step.event);
    let serial = step.after.outgoing.serial;
    let may_raise = matches!(step.event, Event::Transmit { .. } | Event::Timer { .. });
    if may_raise && serial != step.before.outgoing.serial {
        found.push(Boundary::Serial(name, serial));
    }
    let tickets = step.after.tickets;
    if tickets != step.before.tickets && tickets.are_used_up() {
        found.push(Boundary::LastTicket(name));
    }
    found.extend(sent_fack(step).map_or(Vec::new(), SentFack::boundaries));
    found
}

/// Counts what a PDU reaches at either side.
fn count_pdu<S: Counted>(pdu: &Pdu, step: &Step<S>, counts: &mut Counts) {
    let side = S::WORDS.side;
    let number = pdu.header.fragment_number;
    if step.answer == 0 {
        let kind = type_name(pdu.header.pdu_type);
        counts.add(format_args!(
            "{side} {kind} taken, {}",
            order_name(pdu.order)
        ));
    }
    match (pdu.header.pdu_type, step.answer) {
        (pdu_type::FACK, 14) => {
            let version = pdu.body.first().copied().unwrap_or(0);
            let what = if version != 0 { "version" } else { "length" };
            counts.add(format_args!("{side} fack malformed: {what}"));
        }
        (pdu_type::FACK, 0 | 17) => {
            let count = u16::from(step.before.outgoing.fragments);
            let above = acknowledged_by(number).cmp(&count);
            counts.add_name(&Boundary::Fack(number, above).name(&S::WORDS));
        }
        (_, 12) => counts.add_name(&Boundary::ImpossibleNumber(number).name(&S::WORDS)),
        (pdu_type::REQUEST | pdu_type::RESPONSE, answer @ (16 | 17))
            if fack::is_due(pdu.header.flags1) =>
        {
            let received = S::WORDS.received;
            counts.add(format_args!("{side} {received} not put, no fack: {answer}"));
        }
        _ => {}
    }
}
