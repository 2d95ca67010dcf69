//! Scenes of a server that go round the rows of document 01's table.

use crate::codec::pdu::{flags1, pdu_type, ByteOrder, BODY_LIMIT};
use crate::generate::arriving::{Arriving, LAST_OF_SEVERAL, ONE_OF_SEVERAL, WHOLE};
use crate::generate::fragment::{at_an_edge, sent_again, EDGES};
use crate::generate::server::author::Author;
use crate::generate::server::cases::record_with_numbers;
use crate::generate::server::pdus as pdu;
use crate::generate::turn::Choices;
use crate::records::incoming::Incoming;
use crate::records::server::{Resend, State, STATES};
use crate::records::timer::RETRY_LIMIT;

pub const ORDERS: [ByteOrder; 2] = [ByteOrder::Little, ByteOrder::Big];

fn with_no_fack(mut arriving: Arriving, no_fack: bool) -> Arriving {
    arriving.header.flags1 &= !flags1::NO_FACK;
    if no_fack {
        arriving.header.flags1 |= flags1::NO_FACK;
    }
    arriving
}

/// The flags that a request can have on its first fragment.
fn first_fragment_bits(choices: &mut Choices) -> (u8, bool) {
    choices.pick(&[
        (WHOLE, false),
        (ONE_OF_SEVERAL, false),
        (LAST_OF_SEVERAL, false),
        (WHOLE, true),
        (flags1::LAST_FRAGMENT, false),
        (flags1::LAST_FRAGMENT, true),
        (ONE_OF_SEVERAL, true),
        (LAST_OF_SEVERAL, true),
    ])
}

/// A request of a newer call begins in every state but RUNNING.
pub fn newer_request(turn: usize, author: &mut Author) {
    let mut choices = Choices::of(turn);
    let states = STATES.map(|state| match state {
        State::Running => State::IdleFresh,
        other => other,
    });
    let (bits, no_fack) = first_fragment_bits(&mut choices);
    // The states shift from one round of the flags to the next.
    let state = states[(turn + choices.below(8)) % 8];
    let length = [0, 1, 100, BODY_LIMIT - 1, BODY_LIMIT][turn % 5];
    let server = record_with_numbers(state, &mut author.random);
    author.set_record(server);
    author.arrive(|server, random| {
        let mut request = pdu::request_at((0, bits), server, random);
        request.body = random.bytes(length);
        let request = with_no_fack(pdu::newer(request, server, random), no_fack);
        request.in_order(ORDERS[turn % 2])
    });
    author.hand_up(0);
}

/// Requests with the server's number: one that is put or begins again, in COLLECT without anything
/// held and in IDLE repeatable; one in RUNNING or HELD.
pub fn equal_request(turn: usize, author: &mut Author) {
    let mut choices = Choices::of(turn);
    let state = choices.pick(&[
        State::Collect,
        State::IdleRepeatable,
        State::Running,
        State::HeldFault,
    ]);
    let (bits, no_fack) = first_fragment_bits(&mut choices);
    let mut server = record_with_numbers(state, &mut author.random);
    if state == State::Collect {
        server.incoming = Incoming::empty();
    }
    server.call.idempotent |= state == State::IdleRepeatable;
    author.set_record(server);
    let order = choices.pick(&ORDERS);
    author.arrive(|server, random| {
        let place = match state {
            State::Collect | State::IdleRepeatable => (0, bits),
            _ => sent_again(&server.incoming, random),
        };
        let request = pdu::request_at(place, server, random);
        with_no_fack(request, no_fack).in_order(order)
    });
}

/// A ping of each age in every state.
pub fn ping_row(turn: usize, author: &mut Author) {
    let mut choices = Choices::of(turn);
    let state = choices.pick(&STATES);
    let is_newer = choices.bool();
    let order = ORDERS[(turn / 3) % 2];
    let server = record_with_numbers(state, &mut author.random);
    author.set_record(server);
    author.arrive(|server, random| {
        let ping = pdu::of_type(pdu_type::PING, server, random).in_order(order);
        if is_newer {
            return pdu::newer(ping, server, random);
        }
        ping
    });
}

/// HELD is replayed by a request, a ping or the timer; all, some or none are acknowledged.
pub fn replay_row(turn: usize, author: &mut Author) {
    let mut choices = Choices::of(turn);
    let event = choices.below(3);
    let acknowledged = choices.below(3) as u8;
    let state = choices.pick(&[State::HeldData, State::HeldFault]);
    let mut server = record_with_numbers(state, &mut author.random);
    if state == State::HeldData {
        server.outgoing.replace(1_393);
        server.outgoing.sent = 2;
        server.outgoing.acknowledged = acknowledged;
    }
    server.resends = choices.pick(&[4, RETRY_LIMIT]);
    server.own.resend = Some(server.tickets.counter);
    author.set_record(server);
    match event {
        0 => author.arrive(|server, random| {
            let place = sent_again(&server.incoming, random);
            pdu::request_at(place, server, random)
        }),
        1 => author.arrive_of_type(pdu_type::PING),
        _ => author.timer(Resend),
    }
    author.transmit();
}

/// Facks and acks with the server's number where an answer is out, in both byte orders.
pub fn acknowledgement(turn: usize, author: &mut Author) {
    let mut choices = Choices::of(turn);
    let state = choices.pick(&[State::Replying, State::HeldData, State::HeldFault]);
    let kind = choices.below(5);
    let order = choices.pick(&ORDERS);
    let mut server = record_with_numbers(state, &mut author.random);
    server.outgoing.acknowledged = 0;
    server.call.idempotent = kind == 4;
    let count = u16::from(server.outgoing.fragments);
    author.set_record(server);
    author.arrive(|server, random| {
        let arriving = match kind {
            0 => Arriving::fack_of(count.wrapping_sub(1), server, random),
            1 => Arriving::fack_of(65_535, server, random),
            2 => Arriving::fack_of(count, server, random),
            _ => pdu::of_type(pdu_type::ACK, server, random),
        };
        arriving.in_order(order)
    });
}

/// Fragments of a request of several, at the edges of what is put and what contradicts.
pub fn fragment_case(turn: usize, author: &mut Author) {
    let mut choices = Choices::of(turn);
    let edge = choices.below(EDGES);
    // Every second record is in COLLECT; where nothing is put, the same contradicts.
    let state = choices.pick(&[
        State::Collect,
        State::Running,
        State::Collect,
        State::HeldData,
        State::Collect,
        State::HeldFault,
    ]);
    let mut server = record_with_numbers(state, &mut author.random);
    let (incoming, place) = at_an_edge(edge, &mut author.random);
    server.incoming = incoming;
    author.set_record(server);
    author.arrive(|server, random| pdu::request_at(place, server, random));
}
