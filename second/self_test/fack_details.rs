//! What else is to be said of facks, worked out by hand from document 01 with request 1: which bits
//! count, what is not put, the serial, the highest numbers, and calls that begin.

use crate::codec::pdu::{flags1, pdu_type};
use crate::machines::refusal::Refusal;
use crate::records::server::State;
use crate::self_test::all::check;
use crate::self_test::receiver::After::{Count, Whole};
use crate::self_test::receiver::{Receiver, LAST, ONE, RECEIVERS};
use crate::self_test::server_stage::{replied, reply, request, running, NUMBER, SERVER};
use crate::self_test::side::{done, fack_body, is_silent, sends, Sender};

pub fn self_test() -> Result<(), &'static str> {
    for receiver in RECEIVERS {
        other_flags(receiver)?;
        refused(receiver())?;
        own_serial(receiver())?;
        highest_numbers(receiver())?;
    }
    without_a_ticket()?;
    requests_that_are_not_put()?;
    begun_afresh()
}

/// Whether a fack is due, no other bit decides: neither last without fragment, nor those that are
/// only carried.
fn other_flags(new: fn() -> Receiver) -> Result<(), &'static str> {
    let mut receiver = new();
    check(
        receiver.facks((0, ONE | 1 | 128), (0, 0), Count(1)),
        "a fack whatever the other bits are",
    )?;
    check(
        receiver.facks((1, LAST | 1 | 128), (1, 0), Whole),
        "a fack of the last whatever the other bits are",
    )?;
    for flags in [flags1::LAST_FRAGMENT, flags1::NO_FACK, 10, 129] {
        check(
            new().puts((0, flags), Whole),
            "no fack where fragment is clear",
        )?;
    }
    Ok(())
}

/// What is not put gets no fack: a repeated fragment, one that contradicts, an impossible one.
fn refused(mut receiver: Receiver) -> Result<(), &'static str> {
    check(
        receiver.facks((1, LAST), (65_535, 2), Count(0)),
        "the fack before a repeat",
    )?;
    check(
        receiver.refuses((1, LAST), Refusal::AlreadyHeld),
        "a repeated fragment gets no fack",
    )?;
    check(
        receiver.refuses((2, ONE), Refusal::Contradiction),
        "a fragment above the last gets no fack",
    )?;
    check(
        receiver.refuses((32, ONE), Refusal::FragmentNumber),
        "an impossible fragment gets no fack",
    )?;
    check(
        receiver.facks((0, ONE), (1, 0), Whole),
        "the fack behind what is refused",
    )
}

/// A fack carries its sender's serial as it is, and does not raise it.
fn own_serial(mut receiver: Receiver) -> Result<(), &'static str> {
    check(
        receiver.facks((0, ONE), (0, 0), Count(1)) && receiver.keeps_serial(),
        "a fack leaves the serial",
    )?;
    receiver.set_serial(9);
    check(
        receiver.facks((1, ONE), (1, 0), Count(2)) && receiver.keeps_serial(),
        "a fack carries the serial as it is",
    )
}

/// The mask reaches to the highest number, and g does.
fn highest_numbers(mut receiver: Receiver) -> Result<(), &'static str> {
    check(
        receiver.facks((31, ONE), (65_535, 1 << 31), Count(0)),
        "a fack of fragment 31 alone",
    )?;
    check(
        receiver.facks((0, ONE), (0, 1 << 30), Count(1)),
        "a fack of 0 and 31",
    )?;
    for number in 1..30 {
        let mask = 1 << (30 - number);
        check(
            receiver.facks((number, ONE), (number, mask), Count(u32::from(number) + 1)),
            "a fack of all to the middle and 31",
        )?;
    }
    check(
        receiver.facks((30, ONE), (31, 0), Count(32)),
        "a fack of 32 fragments, the last unknown",
    )
}

/// A response that is refused for want of a ticket gets no fack; one that needs none does.
fn without_a_ticket() -> Result<(), &'static str> {
    let mut receiver = Receiver::client(true);
    receiver.stage.client.tickets.counter = u64::MAX;
    check(
        receiver.refuses((0, ONE), Refusal::NoTicket),
        "no fack without a ticket",
    )?;
    check(
        receiver.facks((0, LAST), (0, 0), Whole),
        "a fack that needs no ticket",
    )
}

/// A request with the server's number that is not put gets no fack, fragment set or not.
fn requests_that_are_not_put() -> Result<(), &'static str> {
    let mut stage = running(false);
    let runs = request(&mut stage, NUMBER, LAST, 0, b"run");
    let working = SERVER.bytes(pdu_type::WORKING, 0, 0, 0, &[]);
    check(
        sends(&stage, &runs, &working, None),
        "a fragment while the call runs",
    )?;
    check(reply(&mut stage, 8) == done(), "a reply")?;
    let replying = request(&mut stage, NUMBER, LAST, 0, b"run");
    check(
        replying == Err(Refusal::AlreadyHeld) && is_silent(&stage),
        "a fragment in REPLYING",
    )?;
    let mut stage = replied(false, 8);
    let held = request(&mut stage, NUMBER, LAST, 0, b"run");
    check(held == done() && is_silent(&stage), "a fragment in HELD")
}

/// A begin forgets slots and serial before its fragment is put, and the fack is that of its call.
fn begun_afresh() -> Result<(), &'static str> {
    let body = fack_body(258, 2);
    let mut stage = replied(false, 1_393);
    let newer = request(&mut stage, NUMBER + 1, LAST, 1, b"end");
    let next = Sender {
        number: NUMBER as u8 + 1,
        ..SERVER
    };
    let pdu = next.bytes(pdu_type::FACK, 0, 0, 65_535, &body);
    check(
        sends(&stage, &newer, &pdu, None),
        "the fack of a newer call's first fragment",
    )?;
    let mut stage = replied(true, 0);
    let again = request(&mut stage, NUMBER, LAST | flags1::IDEMPOTENT, 1, b"end");
    let pdu = SERVER.bytes(pdu_type::FACK, 0, 0, 65_535, &body);
    check(
        sends(&stage, &again, &pdu, None) && stage.server.state == State::Collect,
        "the fack of a call begun again",
    )
}
