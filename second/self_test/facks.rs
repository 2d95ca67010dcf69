//! Which fragments get a fack, and what it says: facts worked out by hand from document 01 with
//! request 1. The cases are those that the reading of the request counts.

use crate::codec::pdu::{flags1, pdu_type};
use crate::machines::effect::{Effect, Notice};
use crate::records::client::{ClientSide, State};
use crate::records::server::ServerSide;
use crate::self_test::all::check;
use crate::self_test::client_stage::{self, CLIENT};
use crate::self_test::pair::{deliver, given, joined, Given};
use crate::self_test::receiver::After::{Count, Whole};
use crate::self_test::receiver::{Receiver, LAST, ONE, RECEIVERS};
use crate::self_test::server_stage::{reply, transmit, SERVER};
use crate::self_test::side::{fack_body, only, Outcome, Sender, TICKETS};
use crate::self_test::stage::Stage;

pub fn self_test() -> Result<(), &'static str> {
    for idempotent in [false, true] {
        alone(idempotent)?;
    }
    for receiver in RECEIVERS {
        out_of_order(receiver())?;
        forbidden(receiver())?;
    }
    completed(false, State::AckPending, Some(TICKETS + 3))?;
    completed(true, State::Complete, None)
}

/// The PDU that was sent, with the bits given set in its flags.
fn sent_with(bits: u8, outcome: Outcome, stage: &Stage) -> Vec<u8> {
    let (_, mut datagram) = given(outcome, stage);
    if let Some(flags) = datagram.get_mut(2) {
        *flags |= bits;
    }
    datagram
}

/// A request of one fragment is sent and arrives, and so does a reply; before they arrive, the bits
/// given are set in both. What they bring about at server and client.
fn exchange(idempotent: bool, bits: u8) -> [Given; 2] {
    let mut stage = joined(idempotent, 5);
    let sent = client_stage::transmit(&mut stage);
    let datagram = sent_with(bits, sent, &stage);
    let at_server = deliver::<ServerSide>(&mut stage, &datagram);
    let sent = reply(&mut stage, 5).and_then(|_| transmit(&mut stage));
    let datagram = sent_with(bits, sent, &stage);
    [at_server, deliver::<ClientSide>(&mut stage, &datagram)]
}

/// Case 1. A message that our own machines send as one fragment gets no fack; the same bytes with
/// fragment and last set get one.
fn alone(idempotent: bool) -> Result<(), &'static str> {
    let silent = [Notice::Dispatch, Notice::Last].map(|notice| (only(notice), vec![]));
    check(
        exchange(idempotent, 0) == silent,
        "case 1: a request and a reply of one fragment",
    )?;
    let server = Sender {
        number: 0,
        ..SERVER
    };
    let mark = if idempotent { flags1::IDEMPOTENT } else { 0 };
    let body = fack_body(1, 0);
    let facks = [
        (
            Notice::Dispatch,
            server.bytes(pdu_type::FACK, 0, 0, 0, &body),
        ),
        (
            Notice::Last,
            CLIENT.bytes(pdu_type::FACK, mark, 1, 0, &body),
        ),
    ];
    let facked = facks.map(|(notice, fack)| {
        let effect = Effect {
            pdu_length: Some(fack.len()),
            notice: Some(notice),
        };
        (Ok(effect), fack)
    });
    check(
        exchange(idempotent, LAST) == facked,
        "case 1: the same bytes with fragment and last set",
    )
}

/// Case 2. Each fack tells of what is held when its own fragment is put, and answers its serial; the
/// last goes out in the step of the dispatch, or of "last" (case 6).
fn out_of_order(mut receiver: Receiver) -> Result<(), &'static str> {
    check(
        receiver.facks((2, ONE), (65_535, 4), Count(0)),
        "case 2: fragment 2 of 4 first",
    )?;
    check(
        receiver.facks((0, ONE), (0, 2), Count(1)),
        "case 2: then fragment 0",
    )?;
    check(
        receiver.facks((1, ONE), (2, 0), Count(3)),
        "case 2: then fragment 1",
    )?;
    check(
        receiver.facks((3, LAST), (3, 0), Whole),
        "case 2: then the last",
    )?;
    check(
        (0..4).all(|fragment| receiver.hands_up(fragment)),
        "case 2: what is handed up",
    )
}

/// Case 3. With no fack set a fragment is put and gets none, nor does a whole message.
fn forbidden(mut receiver: Receiver) -> Result<(), &'static str> {
    check(
        receiver.puts((0, ONE | flags1::NO_FACK), Count(1)) && receiver.hands_up(0),
        "case 3: no fack and fragment set",
    )?;
    check(
        receiver.puts((1, LAST | flags1::NO_FACK), Whole) && receiver.hands_up(1),
        "case 3: no fack, fragment and last set",
    )
}

/// Case 6. The last fragment of a reply completes the call: fack and "last" in one step.
fn completed(idempotent: bool, state: State, ack: Option<u64>) -> Result<(), &'static str> {
    let mut receiver = Receiver::client(idempotent);
    check(
        receiver.facks((1, LAST), (65_535, 2), Count(0)),
        "case 6: the last fragment of a reply first",
    )?;
    check(
        receiver.facks((0, ONE), (1, 0), Whole),
        "case 6: fack and last in one step",
    )?;
    let client = &receiver.stage.client;
    check(
        (client.state, client.own.wait, client.own.ack) == (state, None, ack),
        "case 6: the state behind them",
    )
}
