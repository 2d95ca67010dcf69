//! Parts of records of either side: sound ones, and ones that break a single rule.

use crate::generate::random::Random;
use crate::records::call::Call;
use crate::records::incoming::Incoming;
use crate::records::outgoing::{fragment_count, Outgoing, MESSAGE_LIMIT};
use crate::records::rule::Rule;
use crate::records::side::MessageOut;
use crate::records::timer::{Tickets, Timer};

/// Lengths at which the fragment count changes, and their neighbours.
const BOUNDARY_LENGTHS: [u32; 8] = [1_391, 1_392, 1_393, 2_784, 2_785, 43_152, 43_153, 44_544];

/// Fragment counts that are not those of the lengths beside them.
const WRONG_COUNTS: [(u32, u8); 10] = [
    (0, 2),
    (1_392, 2),
    (1_393, 1),
    (2_784, 3),
    (44_544, 31),
    (44_544, 33),
    (44_545, 32),
    (44_545, 33),
    // 257 fragments, which is 1 in eight bits.
    (356_353, 1),
    (u32::MAX, 32),
];

pub fn any_call(random: &mut Random) -> Call {
    Call {
        idempotent: random.percent(50),
        object: random.uuid(),
        interface: random.uuid(),
        version: random.field_u32(),
        operation: random.field_u16(),
    }
}

/// Mostly short messages; now and then one of several fragments.
pub fn message_length(random: &mut Random) -> u32 {
    match random.between(0, 99) {
        0..=59 => random.pick(&[0, 1, 2, 8, 9, 100]),
        60..=94 => random.pick(&BOUNDARY_LENGTHS),
        _ => random.between(0, MESSAGE_LIMIT) as u32,
    }
}

pub fn ticket_counter(random: &mut Random) -> u64 {
    match random.between(0, 99) {
        0..=14 => u64::MAX,
        15..=29 => u64::MAX - 1,
        30..=69 => random.between(0, 9) as u64,
        _ => random.u64(),
    }
}

pub fn call_number(random: &mut Random) -> u32 {
    if random.percent(25) {
        return random.pick(&[0, 1, u32::MAX - 1, u32::MAX]);
    }
    random.field_u32()
}

/// The number of a cancel; above and below the half of all numbers too.
pub fn cancel_number(random: &mut Random) -> u32 {
    let any = random.field_u32();
    random.pick(&[
        0,
        0,
        1,
        2,
        0x7fff_ffff,
        0x8000_0000,
        u32::MAX - 1,
        u32::MAX,
        any,
    ])
}

pub fn retry_count(random: &mut Random) -> u8 {
    random.pick(&[0, 0, 1, 2, 3, 4, 5, 5])
}

pub fn any_serial(random: &mut Random) -> u16 {
    random.pick(&[0, 1, 255, 65_534, 65_535])
}

/// Where no message is out; the length means nothing then.
pub fn no_outgoing(serial: u16, random: &mut Random) -> Outgoing {
    Outgoing {
        length: random.field_u32(),
        serial,
        ..Outgoing::none()
    }
}

/// A message that is out; while it is being sent, not all of it is sent.
pub fn any_outgoing(is_being_sent: bool, serial: u16, random: &mut Random) -> Outgoing {
    let length = message_length(random);
    let outgoing = Outgoing::of_length(length);
    let count = outgoing.fragments;
    let most = if is_being_sent { count - 1 } else { count };
    Outgoing {
        sent: up_to(most, random),
        acknowledged: up_to(count, random),
        serial,
        ..outgoing
    }
}

/// A number up to the highest, which comes often, as 0 does.
fn up_to(highest: u8, random: &mut Random) -> u8 {
    let between = random.between(0, usize::from(highest)) as u8;
    random.pick(&[0, between, highest, highest])
}

pub fn any_timer(is_named: bool, tickets: Tickets, random: &mut Random) -> Timer {
    let earlier = tickets.counter.saturating_sub(1);
    (is_named && random.percent(93)).then(|| random.pick(&[tickets.counter, earlier]))
}

pub fn any_incoming(random: &mut Random) -> Incoming {
    let word = random.u64() as u32;
    let (word, last) = match random.between(0, 11) {
        0..=2 => (0, None),
        3 => (0, Some(random.pick(&[0, 1, 5, 31]))),
        4 => (first_so_many(random.between(1, 6) as u8), None),
        5..=8 => all_but_one(random),
        9 => (word & 0xff & random.u64() as u32, None),
        10 => (
            word,
            Some(random.between((word | 1).ilog2() as usize, 31) as u8),
        ),
        _ => (word, None),
    };
    incoming_of(word, last, random)
}

/// The fragments held as a word, with any lengths.
fn incoming_of(word: u32, last: Option<u8>, random: &mut Random) -> Incoming {
    let mut incoming = Incoming::empty();
    incoming.last = last;
    for (number, slot) in incoming.slots.iter_mut().enumerate() {
        *slot = (word >> number & 1 == 1).then(|| held_length(random));
    }
    incoming
}

/// A message that is received whole.
pub fn whole_incoming(random: &mut Random) -> Incoming {
    let last = random.pick(&[0, 0, 1, 2, 4, 30, 31]);
    whole_of(last + 1, random)
}

/// A message of so many fragments that is received whole.
pub fn whole_of(count: u8, random: &mut Random) -> Incoming {
    incoming_of(first_so_many(count), Some(count - 1), random)
}

fn first_so_many(count: u8) -> u32 {
    ((1u64 << count) - 1) as u32
}

/// All to a last one are held but one; the last may be unknown where it is the one missing.
fn all_but_one(random: &mut Random) -> (u32, Option<u8>) {
    let last = random.pick(&[0, 1, 2, 4, 30, 31]);
    let missing = random.between(0, usize::from(last)) as u8;
    let is_known = missing != last || random.percent(50);
    (
        first_so_many(last + 1) & !(1 << missing),
        is_known.then_some(last),
    )
}

fn held_length(random: &mut Random) -> u16 {
    match random.between(0, 99) {
        0..=7 => random.pick(&[1_391, 1_392]),
        8..=27 => 0,
        _ => random.between(1, 12) as u16,
    }
}

/// Breaks a rule of the message that is out; true if it is one.
pub fn break_outgoing(outgoing: &mut Outgoing, rule: Rule, random: &mut Random) -> bool {
    let count = outgoing.fragments;
    match rule {
        Rule::Sent => outgoing.sent = random.pick(&[count + 1, 255]),
        Rule::SentBelow => outgoing.sent = count,
        Rule::Acknowledged => outgoing.acknowledged = random.pick(&[count + 1, 255]),
        _ => return false,
    }
    true
}

/// Another fragment count than that of the length, or than 0 where no message is out.
pub fn break_fragment_count(
    outgoing: &mut Outgoing,
    message_out: MessageOut,
    may_be_empty: bool,
    random: &mut Random,
) {
    outgoing.sent = 0;
    outgoing.acknowledged = 0;
    match message_out {
        MessageOut::Never => {
            // A sound count elsewhere, but no message is out.
            outgoing.length = message_length(random);
            outgoing.fragments = fragment_count(outgoing.length).unwrap_or(1);
        }
        MessageOut::Always if may_be_empty && random.percent(20) => outgoing.fragments = 0,
        _ => (outgoing.length, outgoing.fragments) = random.pick(&WRONG_COUNTS),
    }
}

/// Breaks a rule of the message received; true if it is one.
pub fn break_incoming(incoming: &mut Incoming, rule: Rule, random: &mut Random) -> bool {
    match rule {
        Rule::KnownLast => incoming.last = Some(random.pick(&[32, 33, 254])),
        Rule::HeldLength => {
            let number = random.between(0, usize::from(incoming.last.unwrap_or(31)));
            incoming.slots[number] = Some(random.pick(&[1_393, 2_048, 65_535]));
        }
        Rule::HeldAboveLast => break_last(incoming, random),
        _ => return false,
    }
    true
}

/// One that is held becomes higher than the known last.
fn break_last(incoming: &mut Incoming, random: &mut Random) {
    let held = random.between(1, 31);
    incoming.slots[held] = Some(held_length(random));
    incoming.last = Some(random.pick(&[0, held as u8 - 1]));
}

/// A ticket above the counter, which must not be at its last.
pub fn ticket_above(tickets: Tickets, random: &mut Random) -> Timer {
    Some(random.pick(&[tickets.counter + 1, u64::MAX]))
}
