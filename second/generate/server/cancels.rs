//! Scenes of a server that go round the cases of the cancels that arrive.

use crate::codec::pdu::flags1;
use crate::generate::arriving::{Arriving, WHOLE};
use crate::generate::cancel::CANCEL_WAYS;
use crate::generate::server::author::Author;
use crate::generate::server::cases::record_with_numbers;
use crate::generate::server::pdus as pdu;
use crate::generate::server::rows::ORDERS;
use crate::generate::turn::Choices;
use crate::machines::server_row::Age;
use crate::records::server::{State, STATES};

/// A cancel of each age in every state, every third one malformed. What it says of its call is
/// anything, or just what the server's call is.
pub fn cancel_case(turn: usize, author: &mut Author) {
    let mut choices = Choices::of(turn);
    let state = choices.pick(&STATES);
    let age = choices.pick(&[Age::Equal, Age::Newer, Age::Older]);
    let is_malformed = choices.below(3) == 2;
    let order = choices.pick(&ORDERS);
    let is_of_call = choices.bool();
    let server = record_with_numbers(state, &mut author.random);
    author.set_record(server);
    author.arrive(|server, random| {
        let mut cancel = pdu::cancel(server, random).in_order(order);
        if is_of_call {
            pdu::set_call(&mut cancel.header, &server.call);
        }
        if is_malformed {
            cancel.damage_cancel(turn % CANCEL_WAYS, random);
        }
        match age {
            Age::Older => pdu::older(cancel, server, random),
            Age::Equal => cancel,
            Age::Newer => pdu::newer(cancel, server, random),
        }
    });
}

/// Cancels of a call that runs: each number beside the last one seen, and the same once more.
pub fn cancel_while_running(turn: usize, author: &mut Author) {
    let mut choices = Choices::of(turn);
    let seen = choices.pick(&[0, 1, 5, 0x7fff_ffff, 0x8000_0000, u32::MAX - 1, u32::MAX]);
    let beside = choices.pick(&pdu::numbers_beside(seen));
    let mut server = record_with_numbers(State::Running, &mut author.random);
    server.own.cancel_number = seen;
    author.set_record(server);
    for _ in 0..2 {
        author.arrive(|server, random| Arriving::cancel_of(beside, server, random));
    }
}

/// A begin forgets the last cancel seen, and the call that runs then notices the same one again.
pub fn forgotten_cancel(turn: usize, author: &mut Author) {
    let mut choices = Choices::of(turn);
    let is_newer = choices.bool();
    let state = match is_newer {
        true => choices.pick(&[State::HeldData, State::IdleSpent, State::Collect]),
        false => State::IdleRepeatable,
    };
    let mut server = record_with_numbers(state, &mut author.random);
    server.call.idempotent = true;
    server.own.cancel_number = choices.pick(&[5, u32::MAX]);
    let number = server.own.cancel_number;
    author.set_record(server);
    author.arrive(|server, random| {
        let mut request = pdu::request_at((0, WHOLE), server, random);
        request.header.flags1 |= flags1::IDEMPOTENT;
        match is_newer {
            true => pdu::newer(request, server, random),
            false => request,
        }
    });
    author.arrive(|server, random| Arriving::cancel_of(number, server, random));
}
