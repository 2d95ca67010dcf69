//! Scenes of a client that go round the cases of one point: a rule, a row, a refusal.

use crate::codec::pdu::{flags1, pdu_type, ByteOrder, BODY_LIMIT};
use crate::generate::arriving::{
    Arriving, IMPOSSIBLE_WAYS, LAST_OF_SEVERAL, ONE_OF_SEVERAL, WHOLE,
};
use crate::generate::client::author::Author;
use crate::generate::client::events::any_timer_of;
use crate::generate::client::pdus::MALFORMED_WAYS;
use crate::generate::fragment::{at_an_edge, EDGES};
use crate::generate::made::Made;
use crate::generate::random::Random;
use crate::generate::scenes;
use crate::generate::turn::Choices;
use crate::records::client::{Client, ClientSide, State, TimerKind, ACTIVE_STATES, STATES};
use crate::records::incoming::Incoming;
use crate::records::outgoing::Outgoing;
use crate::records::timer::RETRY_LIMIT;

/// Every event meets a record that breaks one rule.
pub fn broken_record(turn: usize, author: &mut Author) {
    let client: Client = scenes::broken_record(turn, &mut author.random);
    let kind = any_timer_of(client.state, &mut author.random);
    author.set_record(client);
    author.start(8);
    author.cancel();
    author.transmit();
    author.arrive(Arriving::response);
    author.timer(kind);
    author.hand_up(0);
}

/// A record in which a timer can still be armed.
pub fn record_with_tickets(state: State, random: &mut Random) -> Client {
    let mut client = ClientSide::sound_record(state, random);
    client.leave_a_ticket();
    client
}

/// The first fragment of a reply, with its eight sets of flags and of any length.
pub fn first_fragment(turn: usize, author: &mut Author) {
    let mut choices = Choices::of(turn);
    let state = choices.pick(&ACTIVE_STATES);
    let mut client = record_with_tickets(state, &mut author.random);
    client.call.idempotent = choices.bool();
    client.incoming = Incoming::empty();
    author.set_record(client);
    let fragment_bits = choices.pick(&[
        WHOLE,
        LAST_OF_SEVERAL,
        ONE_OF_SEVERAL,
        flags1::LAST_FRAGMENT,
    ]);
    let no_fack = choices.pick(&[0, flags1::NO_FACK]);
    let length = [0, 1, 100, BODY_LIMIT - 1, BODY_LIMIT][turn % 5];
    author.arrive(|client, random| {
        let mut reply = Arriving::response_of(0, fragment_bits, client, random);
        reply.header.flags1 = reply.header.flags1 & !flags1::NO_FACK | no_fack;
        reply.body = random.bytes(length);
        reply
    });
    author.hand_up(0);
}

/// Fragments of a reply of several, at the edges of what is put and what contradicts.
pub fn fragment_case(turn: usize, author: &mut Author) {
    let mut choices = Choices::of(turn);
    let mut client = record_with_tickets(choices.pick(&ACTIVE_STATES), &mut author.random);
    let (incoming, (number, bits)) = at_an_edge(choices.below(EDGES), &mut author.random);
    client.incoming = incoming;
    author.set_record(client);
    author.arrive(|client, random| Arriving::response_of(number, bits, client, random));
}

/// Rows that arm nothing are done also where no ticket is left.
pub fn no_ticket_left(turn: usize, author: &mut Author) {
    let mut choices = Choices::of(turn);
    let case = choices.below(12);
    let state = match case {
        0 => State::SendFrags,
        1 => State::AckPending,
        2 => choices.pick(&[State::Dispatched, State::ReceiveFrags]),
        3 => choices.pick(&[State::AckPending, State::Complete, State::Fault]),
        4 => State::Dispatched,
        _ => choices.pick(&ACTIVE_STATES),
    };
    let client = record_without_tickets(state, &mut author.random);
    author.set_record(client);
    match case {
        0 => author.transmit(),
        1 => author.timer(TimerKind::Ack),
        2 => author.timer(TimerKind::Wait),
        3 => author.start(0),
        4 => author.arrive_of_type(pdu_type::NOCALL),
        5 => author.arrive_of_type(pdu_type::FAULT),
        6 => author.arrive_of_type(pdu_type::REJECT),
        7 => author.arrive(|client, random| Arriving::fack_of(0, client, random)),
        8 => author.arrive(|client, random| Arriving::response_of(0, WHOLE, client, random)),
        // CANCEL is armed already.
        9 => author.cancel(),
        10 => author.timer(TimerKind::Cancel),
        _ => author.arrive(|client, random| Arriving::cancel_ack_of(7, client, random)),
    }
}

/// A record of an idempotent call of three fragments with nothing received. All of its tickets are
/// used up, and it is at its limits.
fn record_without_tickets(state: State, random: &mut Random) -> Client {
    let mut client = ClientSide::sound_record(state, random);
    client.number = 0;
    client.call.idempotent = true;
    client.outgoing = Outgoing::of_length(2_785);
    client.incoming = Incoming::empty();
    client.own.waits = RETRY_LIMIT;
    client.tickets.counter = u64::MAX;
    client.own.wait = state.names(TimerKind::Wait).then_some(u64::MAX);
    client.own.ack = state.names(TimerKind::Ack).then_some(u64::MAX);
    client.own.cancel = state.names(TimerKind::Cancel).then_some(u64::MAX);
    client.own.cancel_number = 7;
    client
}

/// A row of each type in both byte orders.
pub fn arrival_row(turn: usize, author: &mut Author) {
    let types = [
        pdu_type::FAULT,
        pdu_type::WORKING,
        pdu_type::NOCALL,
        pdu_type::REJECT,
        pdu_type::FACK,
        pdu_type::RESPONSE,
    ];
    let mut choices = Choices::of(turn);
    let state = choices.pick(&[State::Dispatched, State::ReceiveFrags, State::SendFrags]);
    let order = choices.pick(&[ByteOrder::Little, ByteOrder::Big]);
    let pdu_type = choices.pick(&types);
    let mut client = record_with_tickets(state, &mut author.random);
    client.outgoing.acknowledged = 0;
    let all = u16::from(client.outgoing.fragments) - 1;
    author.set_record(client);
    author.arrive(|client, random| {
        let arriving = match pdu_type {
            pdu_type::RESPONSE => Arriving::response(client, random),
            pdu_type::FACK => Arriving::fack_of(all, client, random),
            _ => Arriving::of_type(pdu_type, client, random),
        };
        arriving.in_order(order)
    });
}

pub fn malformed_body(turn: usize, author: &mut Author) {
    let mut choices = Choices::of(turn);
    let way = choices.below(MALFORMED_WAYS);
    // Every state but QUEUED, which shifts from one round of the ways to the next.
    let state = STATES[1 + (way + choices.below(6)) % 6];
    let client = ClientSide::sound_record(state, &mut author.random);
    author.set_record(client);
    author.arrive(|client, random| Arriving::malformed(way, client, random));
}

pub fn impossible_number(turn: usize, author: &mut Author) {
    let mut choices = Choices::of(turn);
    let state = choices.pick(&STATES);
    let way = choices.below(IMPOSSIBLE_WAYS);
    let client = ClientSide::sound_record(state, &mut author.random);
    author.set_record(client);
    author.arrive(|client, random| Arriving::impossible_response(way, client, random));
}
