//! Cases 7 and 8 of request 2, by hand: cancels at the server.

use crate::codec::pdu::{flags1, pdu_type};
use crate::machines::effect::Notice;
use crate::machines::refusal::Refusal;
use crate::records::server::State;
use crate::self_test::all::check;
use crate::self_test::server_stage::{
    ack, arrive_header, fault, fresh, replied, reply, request, running, NUMBER, SERVER,
};
use crate::self_test::side::{done, header_of, sends, Outcome, TICKETS};
use crate::self_test::stage::Stage;

pub fn self_test() -> Result<(), &'static str> {
    while_it_runs()?;
    while_it_is_collected()?;
    begun_again()?;
    behind_the_answer()?;
    echoed()?;
    without_a_row()?;
    order_of_refusals()
}

/// A cancel with the number given of a call; what is not judged is anything.
fn cancel(stage: &mut Stage, call_number: u32, number: u8) -> Outcome {
    let body = [0, 0, 0, 0, 0, 0, 0, number];
    let header = header_of(pdu_type::CANCEL, call_number, 255, 9);
    arrive_header(stage, &header, &body)
}

/// Whether a cancel of call 7 gets the cancel_ack with its number and the mark, and the notice.
fn is_answered(stage: &mut Stage, number: u8, accepts: u8, notice: Option<Notice>) -> bool {
    let serial = stage.server.outgoing.serial as u8;
    let outcome = cancel(stage, NUMBER, number);
    let body = [0, 0, 0, 0, number, 0, 0, 0, accepts, 0, 0, 0];
    let pdu = SERVER.bytes(pdu_type::CANCEL_ACK, 0, serial, 0, &body);
    sends(stage, &outcome, &pdu, notice)
}

/// The same where nothing of the record changes.
fn is_only_answered(stage: &mut Stage, number: u8, accepts: u8) -> bool {
    let before = stage.server.clone();
    is_answered(stage, number, accepts, None) && stage.server == before
}

/// Case 7. A call that runs accepts all cancels, and notices those above the last one.
fn while_it_runs() -> Result<(), &'static str> {
    let mut stage = running(false);
    let noticed = Some(Notice::Cancel);
    check(
        is_only_answered(&mut stage, 0, 1),
        "cancel case 7: cancel 0 is not above 0",
    )?;
    check(
        is_answered(&mut stage, 5, 1, noticed),
        "cancel case 7: cancel 5",
    )?;
    check(
        stage.server.own.cancel_number == 5 && stage.server.state == State::Running,
        "cancel case 7: cancel 5 is remembered",
    )?;
    check(
        is_only_answered(&mut stage, 5, 1) && is_only_answered(&mut stage, 3, 1),
        "cancel case 7: cancels 5 and 3 behind it",
    )?;
    check(
        is_answered(&mut stage, 6, 1, noticed),
        "cancel case 7: cancel 6",
    )?;
    check(
        is_only_answered(&mut stage, 0, 1) && stage.server.own.cancel_number == 6,
        "cancel case 7: cancel 0 behind cancel 6",
    )?;
    stage.server.own.cancel_number = u32::MAX;
    check(is_only_answered(&mut stage, 1, 1), "numbers do not wrap")
}

/// Case 7. What COLLECT answers is not remembered.
fn while_it_is_collected() -> Result<(), &'static str> {
    let mut stage = fresh();
    let first = request(&mut stage, NUMBER, flags1::FRAGMENT, 0, b"one");
    check(
        first.is_ok() && is_only_answered(&mut stage, 5, 0),
        "cancel case 7: a cancel in COLLECT",
    )?;
    let last = flags1::FRAGMENT | flags1::LAST_FRAGMENT;
    let dispatched = request(&mut stage, NUMBER, last, 1, b"two");
    check(
        dispatched.map(|effect| effect.notice) == Ok(Some(Notice::Dispatch)),
        "cancel case 7: the dispatch behind a cancel",
    )?;
    check(
        is_answered(&mut stage, 5, 1, Some(Notice::Cancel)),
        "cancel case 7: the same cancel while it runs",
    )
}

/// A begin forgets the number, whether its call is the same or a newer one.
fn begun_again() -> Result<(), &'static str> {
    for number in [NUMBER, NUMBER + 1] {
        let mut stage = replied(true, 8);
        stage.server.own.cancel_number = 6;
        check(
            stage.server.state == State::IdleRepeatable,
            "a call that may run again",
        )?;
        let begun = request(&mut stage, number, flags1::IDEMPOTENT, 0, b"run");
        check(
            begun.is_ok() && stage.server.own.cancel_number == 0,
            "a begin forgets the number of the cancel",
        )?;
        let noticed = cancel(&mut stage, number, 1).map(|effect| effect.notice);
        check(
            noticed == Ok(Some(Notice::Cancel)),
            "an old cancel in another run",
        )?;
    }
    Ok(())
}

/// Case 8. Where the answer is given a cancel is not accepted, and RESEND stays as it is.
fn behind_the_answer() -> Result<(), &'static str> {
    let mut replying = running(false);
    check(reply(&mut replying, 8) == done(), "a reply")?;
    let mut held_fault = running(false);
    check(fault(&mut held_fault).is_ok(), "a fault")?;
    let stages = [
        (replying, State::Replying, None),
        (replied(false, 8), State::HeldData, Some(TICKETS + 1)),
        (held_fault, State::HeldFault, Some(TICKETS + 1)),
    ];
    for (mut stage, state, resend) in stages {
        check(
            (stage.server.state, stage.server.own.resend) == (state, resend),
            "cancel case 8: states behind the answer",
        )?;
        check(
            is_only_answered(&mut stage, 9, 0) && is_only_answered(&mut stage, 0, 0),
            "cancel case 8: a cancel behind the answer",
        )?;
    }
    Ok(())
}

/// A cancel_ack echoes what its cancel says of the call, and carries the serial as it is.
fn echoed() -> Result<(), &'static str> {
    let mut stage = replied(false, 1_393);
    let mut header = header_of(pdu_type::CANCEL, NUMBER, 0, 0);
    header.object = *b"some other uuids";
    header.interface = *b"more other uuids";
    header.interface_version = 0x1112_1314;
    header.operation = 0x1516;
    let answered = arrive_header(&mut stage, &header, &[0; 8]);
    let pdu = &stage.pdu;
    check(
        answered.is_ok() && &pdu[8..40] == b"some other uuidsmore other uuids",
        "a cancel_ack echoes object and interface",
    )?;
    check(
        pdu[60..64] == [0x14, 0x13, 0x12, 0x11] && pdu[68..70] == [0x16, 0x15],
        "a cancel_ack echoes version and operation",
    )?;
    check(
        (pdu[7], pdu[79], stage.server.outgoing.serial) == (0, 2, 2),
        "a cancel_ack leaves the serial",
    )
}

/// Case 8. Without a call that is under way there is no row, nor for a newer one.
fn without_a_row() -> Result<(), &'static str> {
    let mut spent = replied(false, 8);
    check(ack(&mut spent, NUMBER) == done(), "a call that is spent")?;
    let stages = [
        (spent, State::IdleSpent, NUMBER),
        (replied(true, 8), State::IdleRepeatable, NUMBER),
        (fresh(), State::IdleFresh, NUMBER),
        (fresh(), State::IdleFresh, 0),
        (running(false), State::Running, NUMBER + 1),
        (replied(false, 8), State::HeldData, NUMBER + 1),
    ];
    for (mut stage, state, call_number) in stages {
        let before = stage.server.clone();
        check(before.state == state, "cancel case 8: states without a row")?;
        check(
            cancel(&mut stage, call_number, 5) == Err(Refusal::NoRow) && stage.server == before,
            "cancel case 8: no row for a cancel",
        )?;
    }
    Ok(())
}

/// Case 8. A call below the server's comes before a malformed body, and that before no row.
fn order_of_refusals() -> Result<(), &'static str> {
    let malformed = |stage: &mut Stage, call_number: u32| {
        let header = header_of(pdu_type::CANCEL, call_number, 255, 9);
        arrive_header(stage, &header, &[0; 7])
    };
    let mut stage = running(false);
    let refused = [NUMBER - 1, NUMBER, NUMBER + 1].map(|number| malformed(&mut stage, number));
    check(
        refused
            == [
                Err(Refusal::OldCall),
                Err(Refusal::MalformedBody),
                Err(Refusal::MalformedBody),
            ],
        "cancel case 8: a body of 7 bytes",
    )?;
    check(
        cancel(&mut stage, NUMBER - 1, 5) == Err(Refusal::OldCall),
        "cancel case 8: a cancel of an older call",
    )?;
    check(
        malformed(&mut fresh(), 0) == Err(Refusal::MalformedBody),
        "cancel case 8: a malformed cancel of a fresh server",
    )
}
