//! Counts what is handed up from the slots lent, and which lent lengths are refused.

use super::counts::Counts;
use super::step::{count_broken_rule, event_name, Counted, Step};
use crate::bench::memory::Lengths;
use crate::codec::pdu::PDU_LIMIT;
use crate::machines::event::Event;
use crate::records::incoming::SLOT_BUFFER_LENGTH;
use crate::records::outgoing::MESSAGE_LIMIT;
use crate::records::record::Record;

/// Counts what is handed up of a fragment, or why nothing is.
pub fn count_hand_up<S: Counted>(
    number: u16,
    record: &Record<S>,
    lent: Lengths,
    counts: &mut Counts,
) {
    let incoming = &record.incoming;
    let is_contiguous = u32::from(number) < incoming.held().contiguous();
    let has_bytes = matches!(incoming.slots.get(usize::from(number)), Some(Some(1..)));
    let is_lent = lent.slots == SLOT_BUFFER_LENGTH;
    let what = match (record.is_sound(), is_lent, is_contiguous && has_bytes) {
        (true, true, true) => "a part",
        (true, true, false) if is_contiguous => "an empty fragment",
        (true, true, false) if incoming.holds(number) => "held but not contiguous",
        (true, true, false) if number > 31 => "a number above 31",
        (true, true, false) => "not held",
        (false, true, true) => {
            count_broken_rule(record, "hand up", counts);
            "a part, but for the broken record"
        }
        (true, false, true) => "a part, but for the length lent",
        _ => "nothing, on several grounds",
    };
    counts.add(format_args!("{} hand up: {what}", S::WORDS.side));
}

/// Which lent length alone is the ground of 1.
pub fn count_lent<S: Counted>(step: &Step<S>, counts: &mut Counts) {
    let wrong_pdu = step.lent.pdu != PDU_LIMIT;
    let wrong_slots = step.lent.slots != SLOT_BUFFER_LENGTH;
    let (other, other_name) = match step.event {
        Event::Arrive { .. } => (wrong_slots, "slot buffer"),
        Event::Transmit { message } => (message.len() > MESSAGE_LIMIT, "message over 44544"),
        // One that brings a message is lent nothing.
        Event::Own(event) if S::message_length(event).is_some() => return,
        Event::Timer { .. } | Event::Own(_) => (false, ""),
    };
    let what = match (step.answer, wrong_pdu, other) {
        (1, true, false) => "PDU buffer",
        (1, false, true) => other_name,
        (1, false, false) if !step.before.is_sound() => "message, record broken too",
        (1, false, false) => "message",
        _ => return,
    };
    let name = event_name(step.event);
    let side = S::WORDS.side;
    counts.add(format_args!("{side} length refused at {name}: {what}"));
}
