//! Clients that go wrong in one point of their cancels.

use crate::codec::pdu::pdu_type;
use crate::door::invocation::{ClientInvocation, Invocation};
use crate::door::outcome::outcome;
use crate::machines::effect::{Effect, Notice};
use crate::records::client::{ClientSide, State, TimerKind};
use crate::self_test::mistaken::{Left, Mistake};

type LeftByClient<'a, 'b, 'c> = &'a mut Left<'b, 'c, ClientSide>;

/// The mistakes of a client, and whether each shows in systems of sound sides.
pub const CLIENTS: [(Mistake<ClientSide>, bool, &str); 13] = [
    (
        arms_again,
        true,
        "a mistaken client: a second cancel arms afresh",
    ),
    (
        takes_any_ack,
        true,
        "a mistaken client: any cancel_ack disarms",
    ),
    (
        keeps_at_end,
        true,
        "a mistaken client: a call ends with CANCEL armed",
    ),
    (
        disarms_at_nocall,
        true,
        "a mistaken client: a nocall disarms CANCEL",
    ),
    (
        disarms_at_transmit,
        true,
        "a mistaken client: DISPATCHED disarms CANCEL",
    ),
    (
        keeps_wait,
        true,
        "a mistaken client: CANCEL leaves WAIT armed",
    ),
    (
        gives_another_cause,
        true,
        "a mistaken client: another cause",
    ),
    (
        takes_any_ticket,
        true,
        "a mistaken client: CANCEL with any ticket",
    ),
    (
        keeps_number,
        true,
        "a mistaken client: a start keeps the number",
    ),
    (
        forgets_number,
        true,
        "a mistaken client: a cancel_ack forgets the number",
    ),
    (
        raises_serial,
        true,
        "a mistaken client: a cancel raises the serial",
    ),
    (wraps_number, false, "a mistaken client: the number wraps"),
    (
        judges_ticket_first,
        false,
        "a mistaken client: 20 although CANCEL is armed",
    ),
];

/// Whether a call is a local cancel.
fn is_cancel(left: &Left<ClientSide>) -> bool {
    matches!(left.invocation, Invocation::Own(ClientInvocation::Cancel))
}

fn arms_again(left: LeftByClient) {
    let was_armed = left.before.own.cancel.is_some();
    if is_cancel(left) && left.is_done() && was_armed && !left.after.tickets.are_used_up() {
        left.after.own.cancel = left.after.tickets.arm();
    }
}

fn takes_any_ack(left: LeftByClient) {
    let is_ack = left.arriving(pdu_type::CANCEL_ACK).is_some();
    if is_ack && left.answers(15) && left.before.own.cancel.is_some() {
        left.after.own.cancel = None;
        left.number = 0;
    }
}

fn keeps_at_end(left: LeftByClient) {
    if !left.after.state.is_active() {
        left.after.own.cancel = left.before.own.cancel;
    }
}

fn disarms_at_nocall(left: LeftByClient) {
    if left.is_done() && left.arriving(pdu_type::NOCALL).is_some() {
        left.after.own.cancel = None;
    }
}

fn disarms_at_transmit(left: LeftByClient) {
    let moves = (left.before.state, left.after.state);
    if moves == (State::SendFrags, State::Dispatched) {
        left.after.own.cancel = None;
    }
}

/// The number that a notice gives back.
fn noticed(notice: Notice) -> u64 {
    outcome(&Ok(Effect::of_notice(notice)))
}

fn keeps_wait(left: LeftByClient) {
    if left.number == noticed(Notice::Cause(3)) {
        left.after.own.wait = left.before.own.wait;
    }
}

fn gives_another_cause(left: LeftByClient) {
    if left.number == noticed(Notice::Cause(3)) {
        left.number = noticed(Notice::Cause(2));
    }
}

fn takes_any_ticket(left: LeftByClient) {
    let is_timer = matches!(left.invocation, Invocation::Timer { kind: 4, .. });
    if is_timer && left.answers(18) && left.before.timer_of(TimerKind::Cancel).is_some() {
        left.after.state = State::Fault;
        left.after.own.wait = None;
        left.after.own.cancel = None;
        left.number = noticed(Notice::Cause(3));
    }
}

fn keeps_number(left: LeftByClient) {
    let is_start = matches!(left.invocation, Invocation::Own(ClientInvocation::Start(_)));
    if is_start && left.is_done() {
        left.after.own.cancel_number = left.before.own.cancel_number;
    }
}

fn forgets_number(left: LeftByClient) {
    if left.is_done() && left.arriving(pdu_type::CANCEL_ACK).is_some() {
        left.after.own.cancel_number = 0;
    }
}

fn raises_serial(left: LeftByClient) {
    if is_cancel(left) && left.is_done() {
        left.after.outgoing.raise_serial();
    }
}

fn wraps_number(left: LeftByClient) {
    let is_last = left.before.own.cancel_number == u32::MAX;
    if is_cancel(left) && left.answers(15) && left.before.state.is_active() && is_last {
        left.after.own.cancel_number = 0;
        left.number = 88 << 16;
    }
}

fn judges_ticket_first(left: LeftByClient) {
    if is_cancel(left) && left.is_done() && left.before.tickets.are_used_up() {
        left.after = left.before.clone();
        left.number = 20;
    }
}
