//! Cases 1, 2, 5 and 6 of request 2, by hand: the client's cancels and their cancel_acks.

use crate::codec::pdu::{flags1, pdu_type};
use crate::machines::effect::Notice;
use crate::machines::event::Event;
use crate::machines::refusal::Refusal;
use crate::records::client::{ClientEvent, ClientSide, State, TimerKind};
use crate::self_test::all::check;
use crate::self_test::client_stage::{
    arrive, cancel, dispatched, start, started, timer, transmit, CLIENT,
};
use crate::self_test::side::{done, is_silent, only, sends, Outcome, Sender, TICKETS};
use crate::self_test::stage::Stage;

/// The first ticket that is armed, and the second.
pub const FIRST: u64 = TICKETS + 1;
pub const SECOND: u64 = TICKETS + 2;

pub fn self_test() -> Result<(), &'static str> {
    for accepts in [0, 1] {
        two_cancels(accepts)?;
    }
    idempotent_cancel()?;
    two_timers()?;
    leaves_the_rest()?;
    stays_armed()?;
    last_ticket()?;
    last_number()?;
    another_buffer()?;
    without_a_row()
}

/// A cancel_ack of call 0, from a sender of the big-endian order.
fn cancel_ack(stage: &mut Stage, number: u8, accepts: u8) -> Outcome {
    let body = [0, 0, 0, 0, 0, 0, 0, number, 0, 0, 0, accepts];
    arrive(stage, pdu_type::CANCEL_ACK, 255, 9, &body)
}

/// Whether the client's next cancel has the serial and the number given, and nothing else comes.
fn cancels(stage: &mut Stage, serial: u8, number: u8) -> bool {
    let outcome = cancel(stage);
    let body = [0, 0, 0, 0, number, 0, 0, 0];
    let pdu = CLIENT.bytes(pdu_type::CANCEL, 0, serial, 0, &body);
    sends(stage, &outcome, &pdu, None)
}

/// The tickets of WAIT, ACK and CANCEL.
pub fn tickets(stage: &Stage) -> [Option<u64>; 3] {
    let own = &stage.client.own;
    [own.wait, own.ack, own.cancel]
}

/// Case 1. The second cancel leaves the ticket, and only the cancel_ack of the second disarms it.
fn two_cancels(accepts: u8) -> Result<(), &'static str> {
    let mut stage = started(false, 1_393);
    check(cancels(&mut stage, 0, 1), "cancel case 1: the first cancel")?;
    check(
        tickets(&stage) == [None, None, Some(FIRST)] && stage.client.state == State::SendFrags,
        "cancel case 1: CANCEL armed",
    )?;
    check(
        cancels(&mut stage, 0, 2),
        "cancel case 1: the second cancel",
    )?;
    check(
        tickets(&stage) == [None, None, Some(FIRST)] && stage.client.tickets.counter == FIRST,
        "cancel case 1: the ticket of the first cancel",
    )?;
    let before = stage.client.clone();
    check(
        cancel_ack(&mut stage, 1, accepts) == Err(Refusal::NoRow) && stage.client == before,
        "cancel case 1: the cancel_ack of the first",
    )?;
    let taken = cancel_ack(&mut stage, 2, accepts);
    check(
        taken == done() && is_silent(&stage) && tickets(&stage) == [None; 3],
        "cancel case 1: the cancel_ack of the second",
    )?;
    check(
        stage.client.own.cancel_number == 2 && stage.client.state == State::SendFrags,
        "cancel case 1: a cancel_ack leaves number and state",
    )?;
    check(
        cancel_ack(&mut stage, 2, accepts) == Err(Refusal::NoRow),
        "cancel case 1: a third cancel_ack",
    )?;
    check(
        cancels(&mut stage, 0, 3) && tickets(&stage) == [None, None, Some(SECOND)],
        "a cancel behind a cancel_ack arms afresh",
    )
}

/// A cancel carries the serial as it is, and the mark of an idempotent call.
fn idempotent_cancel() -> Result<(), &'static str> {
    let mut stage = dispatched(true, 1_393);
    let outcome = cancel(&mut stage);
    let body = [0, 0, 0, 0, 1, 0, 0, 0];
    let pdu = CLIENT.bytes(pdu_type::CANCEL, flags1::IDEMPOTENT, 2, 0, &body);
    check(
        sends(&stage, &outcome, &pdu, None) && stage.client.outgoing.serial == 2,
        "a cancel of an idempotent call",
    )
}

/// Case 2. CANCEL and WAIT are armed at once, and neither takes the other's ticket.
fn two_timers() -> Result<(), &'static str> {
    let mut stage = started(false, 8);
    check(
        cancels(&mut stage, 0, 1) && transmit(&mut stage).is_ok(),
        "cancel case 2: a cancel, then the last fragment",
    )?;
    check(
        tickets(&stage) == [Some(SECOND), None, Some(FIRST)]
            && stage.client.state == State::Dispatched,
        "cancel case 2: both timers armed",
    )?;
    let before = stage.client.clone();
    let late = [(TimerKind::Wait, FIRST), (TimerKind::Cancel, SECOND)]
        .map(|(kind, ticket)| timer(&mut stage, kind, ticket));
    check(
        late == [Err(Refusal::LateTimer), Err(Refusal::LateTimer)] && stage.client == before,
        "cancel case 2: each timer with the other's ticket",
    )
}

/// Cancel and cancel_ack leave all of the record but number and timer.
fn leaves_the_rest() -> Result<(), &'static str> {
    let mut stage = dispatched(false, 8);
    stage.client.own.waits = 3;
    let mut expected = stage.client.clone();
    expected.own.cancel_number = 1;
    expected.own.cancel = Some(SECOND);
    expected.tickets.counter = SECOND;
    check(
        cancels(&mut stage, 1, 1) && stage.client == expected,
        "what a cancel leaves",
    )?;
    expected.own.cancel = None;
    check(
        cancel_ack(&mut stage, 1, 1) == done() && stage.client == expected,
        "what a cancel_ack leaves",
    )
}

/// A PDU buffer of another length comes before a broken record, and that before no row.
fn another_buffer() -> Result<(), &'static str> {
    let mut client = dispatched(false, 8).client;
    client.state = State::Fault;
    let event = Event::Own(ClientEvent::Cancel);
    for length in [0, 1_471, 1_473] {
        let refused = client.take(&event, &mut [], &mut vec![0; length]);
        check(
            refused == Err(Refusal::LentBuffer),
            "a cancel with another PDU buffer",
        )?;
    }
    let refused = client.take(&event, &mut [], &mut [0; 1_472]);
    check(
        refused == Err(Refusal::BrokenRecord),
        "a cancel of a broken record",
    )
}

/// The timer stays armed while the call is active.
fn stays_armed() -> Result<(), &'static str> {
    let mut stage = started(false, 8);
    let steps: [fn(&mut Stage) -> Outcome; 7] = [
        cancel,
        transmit,
        |stage| arrive(stage, pdu_type::FACK, 0, 0, &[0; 16]),
        |stage| arrive(stage, pdu_type::WORKING, 0, 0, &[]),
        |stage| timer(stage, TimerKind::Wait, TICKETS + 3),
        |stage| arrive(stage, pdu_type::NOCALL, 0, 0, &[]),
        |stage| arrive(stage, pdu_type::RESPONSE, 4, 0, b"part"),
    ];
    for step in steps {
        check(
            step(&mut stage).is_ok() && stage.client.own.cancel == Some(FIRST),
            "CANCEL stays armed",
        )?;
    }
    check(
        cancels(&mut stage, 2, 2) && stage.client.state == State::ReceiveFrags,
        "a cancel in RECEIVE_FRAGS",
    )?;
    check(
        tickets(&stage) == [Some(TICKETS + 5), None, Some(FIRST)],
        "CANCEL stays armed in RECEIVE_FRAGS",
    )
}

/// Case 5. Without a ticket left only a cancel that arms nothing is done.
fn last_ticket() -> Result<(), &'static str> {
    let mut stage = started(false, 8);
    stage.client.tickets.counter = u64::MAX;
    let before = stage.client.clone();
    check(
        cancel(&mut stage) == Err(Refusal::NoTicket) && stage.client == before,
        "cancel case 5: the first cancel without a ticket",
    )?;
    stage.client.tickets.counter = u64::MAX - 1;
    check(
        cancels(&mut stage, 0, 1) && stage.client.own.cancel == Some(u64::MAX),
        "cancel case 5: a cancel with the last ticket",
    )?;
    check(
        cancels(&mut stage, 0, 2) && stage.client.own.cancel == Some(u64::MAX),
        "cancel case 5: a cancel that needs no ticket",
    )?;
    let acts = timer(&mut stage, TimerKind::Cancel, u64::MAX);
    check(
        acts == only(Notice::Cause(3)),
        "cancel case 5: CANCEL acts without a ticket",
    )
}

/// Case 6. The last number is sent, and no cancel behind it; a start begins from 1.
fn last_number() -> Result<(), &'static str> {
    let mut stage = started(false, 8);
    stage.client.own.cancel_number = u32::MAX - 1;
    let last = cancel(&mut stage);
    let body = [0, 0, 0, 0, 255, 255, 255, 255];
    let pdu = CLIENT.bytes(pdu_type::CANCEL, 0, 0, 0, &body);
    check(
        sends(&stage, &last, &pdu, None),
        "cancel case 6: the cancel with the last number",
    )?;
    let before = stage.client.clone();
    check(
        cancel(&mut stage) == Err(Refusal::NoRow) && stage.client == before,
        "cancel case 6: no cancel behind the last number",
    )?;
    stage.client.tickets.counter = u64::MAX;
    stage.client.own.cancel = None;
    check(
        cancel(&mut stage) == Err(Refusal::NoRow),
        "cancel case 6: no number comes before no ticket",
    )?;
    stage.client.tickets.counter = TICKETS;
    let failed = arrive(&mut stage, pdu_type::FAULT, 0, 0, &[0; 4]);
    check(
        failed.is_ok() && start(&mut stage, false, 8) == done(),
        "cancel case 6: another start",
    )?;
    let first = cancel(&mut stage);
    let next = Sender {
        number: 1,
        ..CLIENT
    };
    let pdu = next.bytes(pdu_type::CANCEL, 0, 0, 0, &[0, 0, 0, 0, 1, 0, 0, 0]);
    check(
        sends(&stage, &first, &pdu, None),
        "cancel case 6: the first cancel of the next call",
    )
}

/// A cancel_ack of another call, and what has no row in a state.
fn without_a_row() -> Result<(), &'static str> {
    let mut stage = Stage::new();
    check(
        cancel(&mut stage) == Err(Refusal::NoRow)
            && timer(&mut stage, TimerKind::Cancel, 0) == Err(Refusal::NoRow),
        "a cancel in QUEUED",
    )?;
    let mut stage = dispatched(false, 8);
    check(
        timer(&mut stage, TimerKind::Cancel, FIRST) == Err(Refusal::LateTimer),
        "CANCEL where nothing is armed",
    )?;
    check(
        cancel_ack(&mut stage, 0, 0) == Err(Refusal::NoRow),
        "a cancel_ack where nothing is armed",
    )?;
    let last = arrive(&mut stage, pdu_type::RESPONSE, 0, 0, b"all");
    check(last == only(Notice::Last), "a call that completes")?;
    for state in [State::AckPending, State::Complete] {
        check(stage.client.state == state, "states that are not active")?;
        check(
            cancel(&mut stage) == Err(Refusal::NoRow)
                && cancel_ack(&mut stage, 0, 0) == Err(Refusal::NoRow),
            "a cancel and a cancel_ack where the call is not active",
        )?;
        let ticket = stage.client.own.ack.unwrap_or(0);
        check(
            timer(&mut stage, TimerKind::Cancel, ticket) == Err(Refusal::NoRow),
            "CANCEL where the call is not active",
        )?;
        let _ = timer(&mut stage, TimerKind::Ack, ticket);
    }
    check(
        stage.client.is_sound() && stage.hand_up::<ClientSide>(0) == b"all",
        "what is refused leaves the reply",
    )
}
