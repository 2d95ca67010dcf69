//! Scenes of a server that go round the cases of one point: a rule, a refusal, a ticket.

use crate::codec::pdu::{flags1, pdu_type};
use crate::generate::arriving::{Arriving, IMPOSSIBLE_WAYS, WHOLE};
use crate::generate::fragment::sent_again;
use crate::generate::made::Made;
use crate::generate::random::Random;
use crate::generate::scenes;
use crate::generate::server::author::Author;
use crate::generate::server::pdus as pdu;
use crate::generate::turn::Choices;
use crate::records::incoming::Incoming;
use crate::records::outgoing::Outgoing;
use crate::records::server::{Resend, Server, ServerSide, State, STATES};
use crate::records::timer::RETRY_LIMIT;

/// Every event meets a record that breaks one rule.
pub fn broken_record(turn: usize, author: &mut Author) {
    let server = scenes::broken_record(turn, &mut author.random);
    author.set_record(server);
    author.transmit();
    author.arrive(pdu::good);
    author.timer(Resend);
    author.reply(8);
    author.fault();
    author.hand_up(0);
}

/// A record that has tickets and call numbers left.
pub fn record_with_numbers(state: State, random: &mut Random) -> Server {
    let mut server = ServerSide::sound_record(state, random);
    server.number = server.number.clamp(1, u32::MAX - 1);
    server.leave_a_ticket();
    server
}

/// A request with each of the forbidden bits in every state; also where it has no row.
pub fn forbidden_bits(turn: usize, author: &mut Author) {
    let mut choices = Choices::of(turn);
    let state = choices.pick(&STATES);
    let bits = choices.pick(&[
        flags1::MAYBE,
        flags1::BROADCAST,
        flags1::MAYBE | flags1::BROADCAST,
    ]);
    let server = record_with_numbers(state, &mut author.random);
    author.set_record(server);
    author.arrive(|server, random| {
        let mut request = match state {
            State::Running => {
                let request = pdu::request_at((0, WHOLE), server, random);
                pdu::newer(request, server, random)
            }
            _ => pdu::request(server, random),
        };
        request.header.flags1 |= bits;
        request
    });
}

/// Each type that a server takes as an older one, and each that has no row as a newer one and as
/// one with the server's number. Requests are spent in IDLE.
pub fn old_or_without_a_row(turn: usize, author: &mut Author) {
    let mut choices = Choices::of(turn);
    let kind = choices.pick(&[
        pdu_type::REQUEST,
        pdu_type::FACK,
        pdu_type::ACK,
        pdu_type::PING,
        pdu_type::CANCEL,
    ]);
    let age = choices.below(3);
    let state = match (kind, age) {
        (pdu_type::REQUEST, 1) => State::Running,
        (pdu_type::REQUEST, 2) => choices.pick(&[State::IdleRepeatable, State::IdleSpent]),
        (_, 0) => STATES[1 + turn % 7],
        (_, 1) => choices.pick(&[State::IdleFresh, State::HeldData, State::IdleSpent]),
        (pdu_type::CANCEL, _) => choices.pick(&[State::IdleRepeatable, State::IdleSpent]),
        _ => choices.pick(&[State::Collect, State::Running, State::IdleSpent]),
    };
    let mut server = record_with_numbers(state, &mut author.random);
    server.call.idempotent = false;
    author.set_record(server);
    author.arrive(|server, random| {
        let arriving = match kind {
            pdu_type::REQUEST => pdu::request_at((0, WHOLE), server, random),
            _ => pdu::of_type(kind, server, random),
        };
        match age {
            0 => pdu::older(arriving, server, random),
            1 => pdu::newer(arriving, server, random),
            _ => arriving,
        }
    });
}

/// What is handed up, and what is not: a number behind a gap, above 31 or not held, and one of a
/// broken record or from a buffer of the wrong length.
pub fn hand_up_case(turn: usize, author: &mut Author) {
    let state = STATES[turn % STATES.len()];
    let mut server = record_with_numbers(state, &mut author.random);
    server.incoming = Incoming::empty();
    server.incoming.slots[0] = Some([0, 9, 1_392][turn % 3]);
    server.incoming.slots[2] = Some(5);
    author.set_record(server.clone());
    author.hand_up([0, 2, 0, 1, 32, 0][turn % 6]);
    if turn % 3 == 1 {
        server.resends = RETRY_LIMIT + 1;
        author.set_record(server);
        author.lend_wrong();
        author.hand_up(0);
        author.lend_right();
    }
}

/// A request with the server's number that names another call, in every state that has a number.
pub fn changed_call(turn: usize, author: &mut Author) {
    let mut choices = Choices::of(turn);
    let way = choices.below(pdu::CALL_CHANGES);
    let state = choices.pick(&STATES[1..]);
    let mut server = record_with_numbers(state, &mut author.random);
    // The bit must be set for a begin in IDLE repeatable, which then differs from the call's.
    server.call.idempotent = state == State::IdleRepeatable && way != 0;
    author.set_record(server);
    author.arrive(|server, random| {
        let place = sent_again(&server.incoming, random);
        let mut request = pdu::request_at(place, server, random);
        pdu::change_call(way, &mut request.header, random);
        request
    });
}

/// Rows that arm a timer, with no ticket left and with one.
pub fn ticket_needed(turn: usize, author: &mut Author) {
    let mut choices = Choices::of(turn);
    let event = choices.below(4);
    let counter = choices.pick(&[u64::MAX, u64::MAX - 1]);
    let state = match event {
        0 => State::Replying,
        1 => State::IdleSpent,
        2 => State::HeldFault,
        _ => State::Running,
    };
    let mut server = record_without_tickets(state, &mut author.random);
    server.call.idempotent = false;
    server.resends = choices.pick(&[0, 4]);
    server.set_counter(counter);
    if event < 2 {
        server.outgoing = Outgoing::of_length(2_785);
        server.outgoing.sent = 2;
    }
    author.set_record(server);
    match event {
        0 | 1 => author.transmit(),
        2 => author.timer(Resend),
        _ => author.fault(),
    }
}

/// Rows that arm nothing are done also where no ticket is left.
pub fn no_ticket_left(turn: usize, author: &mut Author) {
    let mut choices = Choices::of(turn);
    let case = choices.below(12);
    let state = match case {
        0..=1 => State::Replying,
        2 | 6 | 8 => State::HeldData,
        11 => choices.pick(&STATES[3..]),
        3 => choices.pick(&[State::HeldData, State::HeldFault]),
        4..=5 => State::Running,
        7 => choices.pick(&[State::IdleSpent, State::Collect, State::HeldData]),
        _ => choices.pick(&[State::Replying, State::HeldData]),
    };
    let mut server = record_without_tickets(state, &mut author.random);
    match case {
        // The only fragment of an idempotent call's reply.
        1 => server.outgoing.replace(7),
        // Data is replayed below the limit.
        2 => server.resends = 0,
        10 => server.call.idempotent = false,
        _ => {}
    }
    author.set_record(server);
    match case {
        0..=1 => author.transmit(),
        2..=3 => author.timer(Resend),
        4 => author.reply(3),
        5 => author.fault(),
        6 => author.arrive_of_type(pdu_type::PING),
        7 => author.arrive(|server, random| {
            let request = pdu::request_at((0, WHOLE), server, random);
            pdu::newer(request, server, random)
        }),
        8..=9 => author.arrive(|server, random| Arriving::fack_of(0, server, random)),
        11 => author.arrive(pdu::cancel),
        _ => author.arrive_of_type(pdu_type::ACK),
    }
}

/// A record of an idempotent call, where a message is out of three fragments. All of its tickets
/// are used up, and it is at its limit.
fn record_without_tickets(state: State, random: &mut Random) -> Server {
    let mut server = ServerSide::sound_record(state, random);
    server.number = 7;
    server.call.idempotent = true;
    server.outgoing = match state {
        State::Replying | State::HeldData => Outgoing::of_length(2_785),
        _ => Outgoing::none(),
    };
    server.resends = RETRY_LIMIT;
    server.tickets.counter = u64::MAX;
    server.own.resend = state.is_held().then_some(u64::MAX);
    server
}

pub fn malformed_body(turn: usize, author: &mut Author) {
    let mut choices = Choices::of(turn);
    let way = choices.below(pdu::MALFORMED_WAYS);
    // The states shift from one round of the ways to the next.
    let state = STATES[(way + choices.below(8)) % 8];
    let server = ServerSide::sound_record(state, &mut author.random);
    author.set_record(server);
    author.arrive(|server, random| pdu::malformed(way, server, random));
}

pub fn impossible_number(turn: usize, author: &mut Author) {
    let mut choices = Choices::of(turn);
    let state = choices.pick(&STATES);
    let way = (turn + choices.below(IMPOSSIBLE_WAYS)) % IMPOSSIBLE_WAYS;
    let server = ServerSide::sound_record(state, &mut author.random);
    author.set_record(server);
    author.arrive(|server, random| pdu::impossible_request(way, server, random));
}
