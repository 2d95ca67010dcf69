//! What the coverage of both sides shares: names, and the counts of what is put.

use crate::codec::pdu::{flags1, pdu_type, Pdu};
use crate::coverage::boundary::Boundary;
use crate::coverage::counts::Counts;
use crate::coverage::fack::sent_fack_names;
use crate::generate::arriving::LAST_OF_SEVERAL;
use crate::machines::effect::{Effect, Notice};
use crate::records::incoming::{Fragment, Incoming};
use crate::records::outgoing::Outgoing;
use crate::records::side::Words;
use std::fmt;

/// Counts what an event reaches that is counted once more where both sides are joined.
pub struct Reached {
    pub is_system: bool,
}

impl Reached {
    pub fn count(&self, name: fmt::Arguments, counts: &mut Counts) {
        counts.add(name);
        if self.is_system {
            counts.add(format_args!("system {name}"));
        }
    }
}

pub fn type_name(pdu_type: u8) -> &'static str {
    match pdu_type {
        pdu_type::REQUEST => "request",
        pdu_type::PING => "ping",
        pdu_type::RESPONSE => "response",
        pdu_type::FAULT => "fault",
        pdu_type::WORKING => "working",
        pdu_type::NOCALL => "nocall",
        pdu_type::REJECT => "reject",
        pdu_type::ACK => "ack",
        pdu_type::CANCEL => "cancel",
        pdu_type::FACK => "fack",
        pdu_type::CANCEL_ACK => "cancel_ack",
        _ => "other type",
    }
}

pub fn notice_name(notice: Notice) -> String {
    match notice {
        Notice::Last => "last".into(),
        Notice::Count(_) => "count".into(),
        Notice::Fault(_) => "fault".into(),
        Notice::Reject(_) => "reject".into(),
        Notice::Cause(cause) => format!("cause:{cause}"),
        Notice::Dispatch => "dispatch".into(),
        Notice::Cancel => "cancel".into(),
    }
}

/// From where a message is sent again.
pub fn again_name(outgoing: &Outgoing) -> &'static str {
    if outgoing.acknowledged == outgoing.fragments {
        "again from 0, all are acknowledged"
    } else if outgoing.acknowledged == 0 {
        "again from 0, none is acknowledged"
    } else {
        "again from the first unacknowledged"
    }
}

/// What is held before and after a put; before a begin it is nothing.
pub struct Put<'a> {
    pub words: Words,
    pub before: &'a Incoming,
    pub after: &'a Incoming,
}

pub fn count_put(put: &Put, pdu: &Pdu, effect: &Effect, counts: &mut Counts) {
    let fragment = Fragment::of(&pdu.header);
    let flags = pdu.header.flags1 & (flags1::LAST_FRAGMENT | flags1::FRAGMENT | flags1::NO_FACK);
    let fack = match effect.pdu_length {
        Some(_) => "a fack",
        None => "no fack",
    };
    let prefix = format!("{} {} put", put.words.side, put.words.received);
    counts.add_name(&Boundary::PutNumber(fragment.number, fragment.is_last).name(&put.words));
    counts.add_name(&Boundary::PutLength(pdu.body.len()).name(&put.words));
    counts.add(format_args!("{prefix}: flags {flags} give {fack}"));
    if fragment.number == 0 && flags & LAST_OF_SEVERAL == LAST_OF_SEVERAL {
        counts.add(format_args!(
            "{prefix}: alone with fragment and last set, {fack}"
        ));
    }
    let last_before = put.before.last.map(u16::from);
    if last_before == Some(fragment.number) && !fragment.is_last {
        counts.add(format_args!("{prefix}: at the known last, not marked last"));
    }
    let last = put.after.last.map(u32::from);
    if last == Some(put.after.held().contiguous()) {
        counts.add(format_args!("{prefix}: all but the known last are held"));
    }
}

/// Which contradiction with what is held there is, if there is one.
pub fn contradiction_name(incoming: &Incoming, fragment: Fragment) -> Option<&'static str> {
    if !incoming.contradicts(fragment) {
        return None;
    }
    Some(match incoming.last.map(u16::from) {
        Some(last) if fragment.number > last => "above the known last",
        Some(_) => "another known last",
        None => "a last one below one held",
    })
}

/// The names of what `count_put` counts, but for the boundaries, and those of what is not put and
/// of the facks.
pub fn put_names(words: &Words) -> Vec<String> {
    let prefix = format!("{} {}", words.side, words.received);
    let mut names = vec![
        format!("{prefix} put: all but the known last are held"),
        format!("{prefix} put: at the known last, not marked last"),
    ];
    for flags in [4, 6] {
        names.push(format!("{prefix} put: flags {flags} give a fack"));
    }
    for flags in [0, 2, 8, 10, 12, 14] {
        names.push(format!("{prefix} put: flags {flags} give no fack"));
    }
    for fack in ["a fack", "no fack"] {
        names.push(format!(
            "{prefix} put: alone with fragment and last set, {fack}"
        ));
    }
    names.extend([16, 17].map(|answer| format!("{prefix} not put, no fack: {answer}")));
    names.extend(sent_fack_names(words.side));
    for what in [
        "above the known last",
        "another known last",
        "a last one below one held",
    ] {
        names.push(format!("{prefix} contradicts: {what}"));
    }
    names
}
