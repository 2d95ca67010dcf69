//! Cancels at the door, by hand: the function of the local cancel, the fourth timer, the notice, and
//! the places of the record.

use crate::door::invocation::{ClientInvocation, Invocation, Lent};
use crate::door::layout::RECORD_LENGTH;
use crate::door::outcome::outcome;
use crate::door::record_bytes::encode;
use crate::door::step::{invoke, Door};
use crate::machines::effect::{Effect, Notice};
use crate::records::client::{Client, ClientSide, State};
use crate::records::outgoing::Outgoing;
use crate::records::server::{Server, ServerSide};
use crate::self_test::all::check;

const CANCEL: Invocation<ClientSide> = Invocation::Own(ClientInvocation::Cancel);

pub fn self_test() -> Result<(), &'static str> {
    let effect = Effect {
        pdu_length: Some(92),
        notice: Some(Notice::Cancel),
    };
    check(
        outcome(&Ok(effect)) == 7 << 8 | 92 << 16,
        "the number given back with the notice of a cancel",
    )?;
    local_cancel()?;
    wrong_lengths()?;
    broken_rules()?;
    fourth_timer()?;
    places()
}

/// A function is called with a record and so much of the PDU buffer.
fn call<S: Door>(invocation: &Invocation<S>, record: &mut [u8], pdu_length: usize) -> u64 {
    let lent = Lent {
        record,
        slots: &mut [],
        pdu: &mut vec![0; pdu_length],
    };
    outcome(&invoke(invocation, lent))
}

/// The bytes of a client in SEND_FRAGS with a call of one byte, whose ticket counter is 9.
fn sending() -> [u8; RECORD_LENGTH] {
    let mut client = Client::fresh([7; 16], 9);
    client.state = State::SendFrags;
    client.outgoing = Outgoing::of_length(1);
    encode(&client)
}

fn local_cancel() -> Result<(), &'static str> {
    let mut bytes = sending();
    let mut expected = bytes;
    check(
        call(&CANCEL, &mut bytes, 1_472) == 88 << 16,
        "the local cancel at the door",
    )?;
    // The counter, the ticket, the mark and the number.
    expected[32] = 10;
    expected[56] = 10;
    expected[66] = 1;
    expected[68] = 1;
    check(bytes == expected, "the places of a local cancel")
}

/// What is lent comes first, then bytes that are not readable.
fn wrong_lengths() -> Result<(), &'static str> {
    let mut bytes = sending();
    bytes[66] = 2;
    for length in [0, 1_471, 1_473] {
        check(
            call(&CANCEL, &mut bytes, length) == 1,
            "a local cancel with another PDU buffer",
        )?;
    }
    for length in [0, 271] {
        check(
            call(&CANCEL, &mut bytes[..length], 1_472) == 1,
            "a local cancel with another record",
        )?;
    }
    check(
        call(&CANCEL, &mut bytes, 1_472) == 2,
        "a local cancel with a mark of 2",
    )
}

/// The ticket of a timer that is not armed is not judged; of one that is armed it is.
fn broken_rules() -> Result<(), &'static str> {
    let mut bytes = sending();
    bytes[0] = 6;
    bytes[56] = 200;
    check(
        call(&CANCEL, &mut bytes, 1_472) == 15,
        "a local cancel in FAULT",
    )?;
    bytes[66] = 1;
    bytes[56] = 1;
    check(
        call(&CANCEL, &mut bytes, 1_472) == 2,
        "CANCEL armed in FAULT",
    )?;
    bytes[0] = 1;
    bytes[56] = 10;
    check(
        call(&CANCEL, &mut bytes, 1_472) == 2,
        "a ticket of CANCEL above the counter",
    )
}

/// Kind 4 is the client's; at the server it has no row.
fn fourth_timer() -> Result<(), &'static str> {
    let timer = |ticket: u64| Invocation::Timer { kind: 4, ticket };
    let mut bytes = sending();
    check(
        call(&CANCEL, &mut bytes, 1_472) == 88 << 16,
        "the local cancel before its timer",
    )?;
    check(
        call::<ClientSide>(&timer(9), &mut bytes, 1_472) == 18,
        "a late CANCEL at the door",
    )?;
    check(
        call::<ClientSide>(&timer(10), &mut bytes, 1_472) == 5 << 8 | 3 << 32,
        "CANCEL at the door",
    )?;
    check(
        (bytes[0], bytes[56], bytes[66], bytes[68]) == (6, 0, 0, 1),
        "the places behind CANCEL",
    )?;
    let mut bytes = encode(&Server::fresh([7; 16], 0, 9));
    let timer = Invocation::Timer { kind: 4, ticket: 9 };
    check(
        call::<ServerSide>(&timer, &mut bytes, 1_472) == 15,
        "timer 4 at the server",
    )
}

/// The places of a client that are no longer spare, and those of a server that are.
fn places() -> Result<(), &'static str> {
    let refused_at = |place: usize| {
        let mut bytes = sending();
        bytes[place] = 3;
        call(&CANCEL, &mut bytes, 1_472) == 2
    };
    let refused: Vec<usize> = (52..96).filter(|place| refused_at(*place)).collect();
    let expected: Vec<usize> = [64, 65, 66, 67].into_iter().chain(72..96).collect();
    check(refused == expected, "the spare places of a client")?;
    let timer = Invocation::Timer { kind: 3, ticket: 0 };
    let refused_at = |place: usize| {
        let mut bytes = encode(&Server::fresh([7; 16], 0, 9));
        bytes[place] = 3;
        call::<ServerSide>(&timer, &mut bytes, 1_472) == 2
    };
    let refused: Vec<usize> = (48..96).filter(|place| refused_at(*place)).collect();
    let expected: Vec<usize> = (52..68).chain(72..96).collect();
    check(refused == expected, "the spare places of a server")
}
