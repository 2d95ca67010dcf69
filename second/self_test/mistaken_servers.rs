//! Servers that go wrong in one point of the cancels that come.

use crate::codec::cancel;
use crate::codec::pdu::{pdu_type, ByteOrder};
use crate::door::outcome::outcome;
use crate::machines::effect::{Effect, Notice};
use crate::machines::server_row::Age;
use crate::records::server::{ServerSide, State};
use crate::self_test::mistaken::{Left, Mistake};

type LeftByServer<'a, 'b, 'c> = &'a mut Left<'b, 'c, ServerSide>;

/// The mistakes of a server, and whether each shows in systems of sound sides.
pub const SERVERS: [(Mistake<ServerSide>, bool, &str); 10] = [
    (
        accepts_always,
        true,
        "a mistaken server: accepts in each state",
    ),
    (
        notices_always,
        true,
        "a mistaken server: notices in each state",
    ),
    (
        notices_again,
        true,
        "a mistaken server: notices the last number again",
    ),
    (notices_wrapped, false, "a mistaken server: numbers wrap"),
    (notices_nothing, true, "a mistaken server: no notice"),
    (
        remembers_in_collect,
        true,
        "a mistaken server: COLLECT remembers",
    ),
    (
        remembers_lower,
        true,
        "a mistaken server: remembers a lower number",
    ),
    (
        keeps_seen_number,
        true,
        "a mistaken server: a begin keeps the number",
    ),
    (
        repeats_in_replying,
        true,
        "a mistaken server: 16 in REPLYING",
    ),
    (
        reads_little,
        false,
        "a mistaken server: the number always little-endian",
    ),
];

/// The number of a cancel that is answered.
fn answered_cancel(left: &Left<ServerSide>) -> Option<u32> {
    let pdu = left.arriving(pdu_type::CANCEL)?;
    let number = cancel::number(pdu.body, pdu.order)?;
    left.is_done().then_some(number)
}

/// The number given back of a cancel_ack, with the notice or without it.
fn cancel_ack(notice: Option<Notice>) -> u64 {
    outcome(&Ok(Effect {
        pdu_length: Some(92),
        notice,
    }))
}

fn accepts_always(left: LeftByServer) {
    if answered_cancel(left).is_some() {
        left.pdu[88] = 1;
    }
}

fn notices_always(left: LeftByServer) {
    if let Some(number) = answered_cancel(left) {
        if number > left.before.own.cancel_number {
            left.after.own.cancel_number = number;
            left.number = cancel_ack(Some(Notice::Cancel));
        }
    }
}

fn notices_again(left: LeftByServer) {
    let seen = left.before.own.cancel_number;
    if answered_cancel(left) == Some(seen) && left.before.state == State::Running {
        left.number = cancel_ack(Some(Notice::Cancel));
    }
}

fn notices_wrapped(left: LeftByServer) {
    if let Some(number) = answered_cancel(left) {
        let seen = left.before.own.cancel_number;
        let is_above = (1..1 << 31).contains(&number.wrapping_sub(seen));
        if left.before.state == State::Running {
            left.after.own.cancel_number = if is_above { number } else { seen };
            left.number = cancel_ack(is_above.then_some(Notice::Cancel));
        }
    }
}

fn notices_nothing(left: LeftByServer) {
    if answered_cancel(left).is_some() {
        left.number = cancel_ack(None);
    }
}

fn remembers_in_collect(left: LeftByServer) {
    if let Some(number) = answered_cancel(left) {
        if left.before.state == State::Collect {
            left.after.own.cancel_number = number;
        }
    }
}

fn remembers_lower(left: LeftByServer) {
    if let Some(number) = answered_cancel(left) {
        if left.before.state == State::Running {
            left.after.own.cancel_number = number;
        }
    }
}

fn keeps_seen_number(left: LeftByServer) {
    let Some(request) = left.arriving(pdu_type::REQUEST) else {
        return;
    };
    let is_newer = left.before.age(request.header.call_number) == Age::Newer;
    let begins = is_newer || left.before.state == State::IdleRepeatable;
    if left.is_done() && begins {
        left.after.own.cancel_number = left.before.own.cancel_number;
    }
}

fn repeats_in_replying(left: LeftByServer) {
    if answered_cancel(left).is_some() && left.before.state == State::Replying {
        left.number = 16;
    }
}

fn reads_little(left: LeftByServer) {
    let Some(pdu) = left.arriving(pdu_type::CANCEL) else {
        return;
    };
    let number = cancel::number(pdu.body, ByteOrder::Little);
    if let (true, Some(number)) = (left.is_done(), number) {
        left.pdu[84..88].copy_from_slice(&number.to_le_bytes());
    }
}
