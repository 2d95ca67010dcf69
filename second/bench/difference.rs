//! What differs after an event, in words.

use super::memory::Memory;
use super::words::in_base_16;
use crate::door::layout;
use std::fmt;

/// The numbers given back and what differs in memory, this implementation's first.
pub struct Difference {
    /// The function with its arguments.
    pub what: String,
    /// The record before the event, where one was lent.
    pub before: Vec<u8>,
    /// What was given back, where that differs.
    pub outcomes: Option<(String, String)>,
    /// Buffers that differ: the name, the first place, and the bytes there.
    pub places: Vec<(&'static str, usize, u8, u8)>,
}

/// Where the fields of a record begin.
const FIELDS: [(usize, &str); 26] = [
    (layout::STATE, " (state)"),
    (layout::IDEMPOTENT, " (idempotent)"),
    (layout::FIRST_COUNT, " (WAIT or RESEND count)"),
    (layout::SECOND_COUNT, " (resends)"),
    (layout::FRAGMENTS, " (fragment count)"),
    (layout::SENT, " (sent)"),
    (layout::ACKNOWLEDGED, " (acknowledged)"),
    (layout::KNOWN_LAST, " (known last)"),
    (layout::SERIAL, " (serial)"),
    (layout::OPERATION, " (operation)"),
    (layout::NUMBER, " (number)"),
    (layout::VERSION, " (interface version)"),
    (layout::MESSAGE_LENGTH, " (message length)"),
    (layout::BOOT, " (boot)"),
    (layout::TICKET_COUNTER, " (ticket counter)"),
    (layout::FIRST_TICKET, " (ticket of WAIT or RESEND)"),
    (layout::SECOND_TICKET, " (ticket of ACK, or status)"),
    (layout::THIRD_TICKET, " (ticket of CANCEL, or spare)"),
    (layout::FIRST_ARMED, " (marks of timers, or spare)"),
    (layout::CANCEL_NUMBER, " (cancel number)"),
    (layout::LAST_SPARE, " (spare)"),
    (layout::ACTIVITY, " (activity)"),
    (layout::OBJECT, " (object)"),
    (layout::INTERFACE, " (interface)"),
    (layout::SLOTS, " (slots)"),
    (layout::RECORD_LENGTH, " (behind the record)"),
];

/// The field that a byte of a record belongs to.
fn field_at(place: usize) -> &'static str {
    let mut fields = FIELDS.iter().rev();
    fields
        .find(|field| field.0 <= place)
        .map_or("", |field| field.1)
}

/// The first place at which two buffers differ.
fn first_place(
    name: &'static str,
    own: &[u8],
    other: &[u8],
) -> Option<(&'static str, usize, u8, u8)> {
    let place = own
        .iter()
        .zip(other)
        .position(|(own, other)| own != other)?;
    Some((name, place, own[place], other[place]))
}

/// The places at which the memories differ.
pub fn places(own: &Memory, other: &Memory) -> Vec<(&'static str, usize, u8, u8)> {
    let pairs = [
        ("record", &own.record, &other.record),
        ("slots", &own.slots, &other.slots),
        ("PDU buffer", &own.pdu, &other.pdu),
        ("header", &own.header, &other.header),
    ];
    let places = pairs.map(|(name, own, other)| first_place(name, own.whole(), other.whole()));
    places.into_iter().flatten().collect()
}

/// The parts of the numbers given back, where these differ.
pub fn outcomes(own: u64, other: u64) -> Option<(String, String)> {
    (own != other).then(|| (parts(own), parts(other)))
}

fn parts(number: u64) -> String {
    format!(
        "answer {}, notice {} of {}, PDU of {} bytes",
        number & 255,
        number >> 8 & 255,
        number >> 32,
        number >> 16 & 65_535
    )
}

/// The lengths of parts, where these differ.
pub fn part_lengths(own: u64, other: u64) -> Option<(String, String)> {
    let told = |length: u64| format!("a part of {length} bytes");
    (own != other).then(|| (told(own), told(other)))
}

impl fmt::Display for Difference {
    fn fmt(&self, to: &mut fmt::Formatter) -> fmt::Result {
        writeln!(to, "{}", self.what)?;
        if !self.before.is_empty() {
            writeln!(to, "  record before: {}", in_base_16(&self.before))?;
        }
        if let Some((own, other)) = &self.outcomes {
            writeln!(to, "  second:  {own}\n  library: {other}")?;
        }
        for (name, place, own, other) in &self.places {
            let field = match *name {
                "record" => field_at(*place),
                _ => "",
            };
            writeln!(
                to,
                "  {name} byte {place}{field}: second {own}, library {other}"
            )?;
        }
        Ok(())
    }
}
