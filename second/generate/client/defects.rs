//! Events of a client that give grounds for a refusal, or for two and three at once.

use crate::codec::pdu::pdu_type;
use crate::generate::arriving::{Arriving, IMPOSSIBLE_WAYS};
use crate::generate::client::author::Author;
use crate::generate::client::pdus::MALFORMED_WAYS;
use crate::generate::defect::defect_set;
use crate::generate::defects::{
    any_or, arrive_with_defects, event_with_lend, set_with_length, timer_with_defects,
};
use crate::generate::made::Made;
use crate::generate::parts::message_length;
use crate::generate::random::Random;
use crate::generate::turn::Choices;
use crate::records::client::{Client, ClientSide, State, TimerKind, ACTIVE_STATES, STATES, TIMERS};

/// The number that a PDU leads to, or 0 for a good one, before further defects are put in.
const BASES: [u8; 9] = [0, 10, 12, 13, 14, 15, 16, 17, 20];

/// The defects that can be put into any arrival, by the number that each leads to.
const DEFECT_NUMBERS: [u8; 11] = [1, 2, 3, 4, 5, 6, 7, 8, 9, 13, 20];

/// An arrival that leads to a number, with no, one or two further defects. The counts of these and
/// of those have no common factor, so that in the end all combinations come.
pub fn defects_at_arrival(turn: usize, author: &mut Author) {
    let base = BASES[turn % BASES.len()];
    let client = base_record(base, &mut author.random);
    arrive(base, &defect_set(&DEFECT_NUMBERS, turn), client, author);
}

/// An arrival that leads to a number on one ground.
pub fn refused_arrival(turn: usize, author: &mut Author) {
    let base = BASES[turn % BASES.len()];
    let client = base_record(base, &mut author.random);
    arrive(base, &[], client, author);
}

/// A PDU of a type that no client takes, or a good one with one defect, in any state.
pub fn damaged_arrival(turn: usize, author: &mut Author) {
    let mut choices = Choices::of(turn);
    let client = ClientSide::sound_record(choices.pick(&STATES), &mut author.random);
    match choices.below(1 + DEFECT_NUMBERS.len()) {
        0 => arrive(10, &[], client, author),
        defect => arrive(0, &[DEFECT_NUMBERS[defect - 1]], client, author),
    }
}

fn arrive(base: u8, defects: &[u8], mut client: Client, author: &mut Author) {
    if defects.contains(&20) {
        client.set_counter(u64::MAX);
    }
    let arriving = base_pdu(base, &client, &mut author.random);
    let put_own = |arriving: &mut Arriving, random: &mut Random| {
        if defects.contains(&13) {
            arriving.change_number(random);
        }
    };
    arrive_with_defects(client, arriving, defects, put_own, author);
}

/// A record for which there is a PDU that leads to the number.
fn base_record(base: u8, random: &mut Random) -> Client {
    let over = [State::AckPending, State::Complete, State::Fault];
    let state = match base {
        13 if random.percent(30) => State::Queued,
        14 if random.percent(30) => random.pick(&over),
        10 | 12 => random.pick(&STATES),
        13 | 15 => random.pick(&[ACTIVE_STATES, over].concat()),
        _ => random.pick(&ACTIVE_STATES),
    };
    let mut client = ClientSide::sound_record(state, random);
    if base == 16 {
        client.incoming.slots[0].get_or_insert(3);
    }
    if base == 20 {
        client.set_counter(u64::MAX);
    }
    client
}

fn base_pdu(base: u8, client: &Client, random: &mut Random) -> Arriving {
    match base {
        0 => good_pdu(client, random),
        10 => Arriving::other_type(client, random),
        12 => {
            let way = random.between(0, IMPOSSIBLE_WAYS - 1);
            Arriving::impossible_response(way, client, random)
        }
        13 => {
            let mut arriving = good_pdu(client, random);
            if client.state != State::Queued {
                arriving.change_number(random);
            }
            arriving
        }
        14 => any_malformed(client, random),
        15 => pdu_without_a_row(client, random),
        16 => Arriving::repeated_response(client, random),
        17 => Arriving::contradiction(client, random),
        _ if client.state == State::Dispatched && random.percent(40) => {
            Arriving::of_type(pdu_type::WORKING, client, random)
        }
        _ => Arriving::response(client, random),
    }
}

fn any_malformed(client: &Client, random: &mut Random) -> Arriving {
    Arriving::malformed(random.between(0, MALFORMED_WAYS - 1), client, random)
}

fn good_pdu(client: &Client, random: &mut Random) -> Arriving {
    let plain = [
        pdu_type::FAULT,
        pdu_type::REJECT,
        pdu_type::WORKING,
        pdu_type::NOCALL,
    ];
    match random.between(0, 6) {
        0..=1 => Arriving::response(client, random),
        2 => Arriving::fack(client, random),
        3 => Arriving::cancel_ack(client, random),
        _ => Arriving::of_type(random.pick(&plain), client, random),
    }
}

fn pdu_without_a_row(client: &Client, random: &mut Random) -> Arriving {
    let rare = random.pick(&[pdu_type::WORKING, pdu_type::NOCALL]);
    if client.state == State::Dispatched || random.percent(30) {
        return Arriving::cancel_ack_without_a_row(client, random);
    }
    if client.state.is_active() {
        return Arriving::of_type(rare, client, random);
    }
    match random.between(0, 4) {
        0 => Arriving::repeated_response(client, random),
        1..=2 => Arriving::contradiction(client, random),
        3 => any_malformed(client, random),
        _ => good_pdu(client, random),
    }
}

pub fn defects_at_start(turn: usize, author: &mut Author) {
    let mut choices = Choices::of(turn);
    let random = &mut author.random;
    let mut client = ClientSide::sound_record(choices.pick(&STATES), random);
    let length = message_length(random);
    if choices.bool() {
        client.number = u32::MAX;
    }
    let length = set_with_length(client, length, turn, &mut choices, author);
    author.start(length);
}

/// Every second record can take a local cancel.
pub fn defects_at_cancel(turn: usize, author: &mut Author) {
    let mut choices = Choices::of(turn);
    let lends_wrong = choices.bool();
    let is_broken = choices.bool();
    let state = any_or::<ClientSide>(ACTIVE_STATES[turn / 8 % 3], &mut choices);
    let random = &mut author.random;
    let mut client = ClientSide::sound_record(state, random);
    if random.percent(50) {
        client.set_counter(u64::MAX);
    }
    if random.percent(25) {
        client.own.cancel_number = u32::MAX;
    }
    if is_broken {
        client.break_any_rule(random);
    }
    event_with_lend(client, lends_wrong, author, |author| author.cancel());
}

/// Every second record has the timer.
pub fn defects_at_timer(turn: usize, author: &mut Author) {
    let mut choices = Choices::of(turn);
    let timer = if choices.bool() {
        (choices.pick(&STATES), choices.pick(&TIMERS))
    } else {
        choices.pick(&[
            (State::Dispatched, TimerKind::Wait),
            (State::SendFrags, TimerKind::Cancel),
            (State::ReceiveFrags, TimerKind::Wait),
            (State::Dispatched, TimerKind::Cancel),
            (State::AckPending, TimerKind::Ack),
            (State::ReceiveFrags, TimerKind::Cancel),
        ])
    };
    let set_serial = |client: &mut Client, random: &mut Random| {
        client.outgoing.serial = random.pick(&[7, 65_535]);
    };
    timer_with_defects(timer, &mut choices, set_serial, author);
}
