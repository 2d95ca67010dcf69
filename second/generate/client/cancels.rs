//! Scenes of a client that go round the cases of its cancels.

use crate::codec::pdu::{pdu_type, ByteOrder};
use crate::generate::arriving::{Arriving, ONE_OF_SEVERAL, WHOLE};
use crate::generate::cancel::CANCEL_ACK_WAYS;
use crate::generate::client::author::Author;
use crate::generate::client::cases::record_with_tickets;
use crate::generate::made::Made;
use crate::generate::random::Random;
use crate::generate::turn::Choices;
use crate::records::client::{Client, ClientSide, State, TimerKind, ACTIVE_STATES, STATES};
use crate::records::incoming::Incoming;
use crate::records::timer::RETRY_LIMIT;

/// Two local cancels in each active state, at the edges of number and counter, where the timer is
/// armed and where it is not.
pub fn local_cancel(turn: usize, author: &mut Author) {
    let mut choices = Choices::of(turn);
    let state = choices.pick(&ACTIVE_STATES);
    let is_armed = choices.bool();
    let number = choices.pick(&[0, 1, u32::MAX - 2, u32::MAX - 1, u32::MAX, 0x7fff_ffff]);
    let counter = choices.pick(&[3, u64::MAX - 1, u64::MAX]);
    let mut client = ClientSide::sound_record(state, &mut author.random);
    client.set_counter(counter);
    client.own.cancel_number = number;
    client.own.cancel = is_armed.then_some(counter - 1);
    author.set_record(client);
    author.cancel();
    author.cancel();
}

/// A number beside that of the last cancel, or the same read in the other byte order.
fn other_number(way: usize, number: u32) -> u32 {
    match way {
        0 => number.wrapping_sub(1),
        1 => number.wrapping_add(1),
        2 => number ^ 1 << 31,
        _ => number.swap_bytes(),
    }
}

/// A cancel_ack of this call or of another, with the right number or not, well formed or not, in
/// every state; CANCEL is armed or not.
pub fn cancel_ack_case(turn: usize, author: &mut Author) {
    let mut choices = Choices::of(turn);
    let state = choices.pick(&STATES);
    let is_armed = choices.bool() && state.is_active();
    let way = choices.below(6);
    let is_other_call = choices.below(3) == 2;
    let order = choices.pick(&[ByteOrder::Little, ByteOrder::Big]);
    let random = &mut author.random;
    let number = random.pick(&[0, 1, 2, 256, u32::MAX, 0x1234_5678]);
    let mut client = ClientSide::sound_record(state, random);
    client.own.cancel_number = number;
    client.own.cancel = is_armed.then_some(client.tickets.counter);
    author.set_record(client);
    author.arrive(|client, random| {
        let number = match way {
            0 | 1 => number,
            _ => other_number(random.between(0, 3), number),
        };
        let mut arriving = Arriving::cancel_ack_of(number, client, random).in_order(order);
        if way == 5 {
            arriving.damage_cancel(turn % CANCEL_ACK_WAYS, random);
        }
        if is_other_call {
            arriving.change_number(random);
        }
        arriving
    });
}

/// A client with CANCEL armed, at its limits or not, of which nothing is received.
fn cancelled_record(state: State, is_at_limit: bool, random: &mut Random) -> Client {
    let mut client = record_with_tickets(state, random);
    let counter = client.tickets.counter;
    client.incoming = Incoming::empty();
    client.own.waits = if is_at_limit { RETRY_LIMIT } else { 0 };
    client.resends = client.own.waits;
    client.own.wait = state.names(TimerKind::Wait).then_some(counter);
    client.own.cancel = Some(counter / 2);
    client
}

/// Every row of the active states where CANCEL is armed: it stays armed, or is disarmed where the
/// call leaves these states. Its timer then comes, which may be late.
pub fn cancel_armed(turn: usize, author: &mut Author) {
    let mut choices = Choices::of(turn);
    let state = choices.pick(&ACTIVE_STATES);
    let event = choices.below(9);
    let is_at_limit = choices.bool();
    let client = cancelled_record(state, is_at_limit, &mut author.random);
    let ticket_kind = choices.pick(&[TimerKind::Cancel, TimerKind::Wait]);
    author.set_record(client);
    match event {
        0 => author.transmit(),
        1 => author.arrive_of_type(pdu_type::NOCALL),
        2 => author.arrive_of_type(pdu_type::WORKING),
        3 => author.timer(TimerKind::Wait),
        4 => author.arrive_of_type(pdu_type::FAULT),
        5 => author.arrive_of_type(pdu_type::REJECT),
        6 => author.arrive(Arriving::fack),
        7 => author.arrive(|client, random| Arriving::response_of(0, WHOLE, client, random)),
        _ => {
            author.arrive(|client, random| Arriving::response_of(0, ONE_OF_SEVERAL, client, random))
        }
    }
    author.timer(ticket_kind);
}

/// WAIT and CANCEL are both armed, and each comes with the ticket of the other, then with its own.
pub fn other_ticket(turn: usize, author: &mut Author) {
    let mut choices = Choices::of(turn);
    let state = choices.pick(&[State::Dispatched, State::ReceiveFrags]);
    let timers = [TimerKind::Wait, TimerKind::Cancel];
    let kind = choices.below(2);
    let client = cancelled_record(state, false, &mut author.random);
    author.set_record(client);
    author.timer_of_another(timers[kind], timers[1 - kind]);
    author.timer(timers[kind]);
    author.timer(timers[1 - kind]);
}
