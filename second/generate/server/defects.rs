//! Events of a server that give grounds for a refusal, or for two and three at once.

use crate::codec::pdu::{flags1, pdu_type};
use crate::generate::arriving::Arriving;
use crate::generate::defect::defect_set;
use crate::generate::defects::{
    any_or, arrive_with_defects, event_with_lend, set_with_length, timer_with_defects,
    OTHER_LENGTHS,
};
use crate::generate::made::Made;
use crate::generate::parts::message_length;
use crate::generate::random::Random;
use crate::generate::server::author::Author;
use crate::generate::server::pdus as pdu;
use crate::generate::turn::Choices;
use crate::records::server::{Resend, Server, ServerSide, State, STATES};

/// The number that a PDU leads to, or 0 for a good one, before further defects are put in.
const BASES: [u8; 9] = [0, 10, 11, 12, 13, 14, 15, 16, 17];

/// The defects that can be put into any arrival, by the number that each leads to.
const DEFECT_NUMBERS: [u8; 11] = [1, 2, 3, 4, 5, 6, 7, 8, 9, 11, 13];

/// An arrival that leads to a number, with no, one or two further defects. The counts of these and
/// of those have no common factor, so that in the end all combinations come.
pub fn defects_at_arrival(turn: usize, author: &mut Author) {
    let base = BASES[turn % BASES.len()];
    let server = base_record(base, &mut author.random);
    arrive(base, &defect_set(&DEFECT_NUMBERS, turn), server, author);
}

/// An arrival that leads to a number, with one of the defects that can stand before any of these.
pub fn crossed_defects(turn: usize, author: &mut Author) {
    let mut choices = Choices::of(turn);
    let defect = choices.pick(&[1, 2, 4, 6, 7, 8, 9]);
    let base = choices.pick(&BASES[1..]);
    let server = base_record(base, &mut author.random);
    arrive(base, &[defect], server, author);
}

/// An arrival that leads to a number on one ground.
pub fn refused_arrival(turn: usize, author: &mut Author) {
    let base = BASES[turn % BASES.len()];
    let server = base_record(base, &mut author.random);
    arrive(base, &[], server, author);
}

/// A PDU of a type that no server takes, or a good one with one defect, in any state.
pub fn damaged_arrival(turn: usize, author: &mut Author) {
    let mut choices = Choices::of(turn);
    let mut server = ServerSide::sound_record(choices.pick(&STATES), &mut author.random);
    server.number = server.number.max(1);
    match choices.below(2 + DEFECT_NUMBERS.len()) {
        0 => arrive(10, &[], server, author),
        1 => arrive(15, &[], server, author),
        defect => arrive(0, &[DEFECT_NUMBERS[defect - 2]], server, author),
    }
}

fn arrive(base: u8, defects: &[u8], server: Server, author: &mut Author) {
    let random = &mut author.random;
    let mut arriving = base_pdu(base, &server, random);
    if defects.contains(&13) {
        arriving = pdu::older(arriving, &server, random);
    }
    let put_own = |arriving: &mut Arriving, random: &mut Random| {
        if defects.contains(&11) {
            set_maybe_or_broadcast(arriving, random);
        }
    };
    arrive_with_defects(server, arriving, defects, put_own, author);
}

/// In another PDU than a request the bits are not judged.
fn set_maybe_or_broadcast(arriving: &mut Arriving, random: &mut Random) {
    let both = flags1::MAYBE | flags1::BROADCAST;
    arriving.header.flags1 |= random.pick(&[flags1::MAYBE, flags1::BROADCAST, both]);
}

/// A record for which there is a PDU that leads to the number.
fn base_record(base: u8, random: &mut Random) -> Server {
    let held = [State::HeldData, State::HeldFault];
    let state = match base {
        13 if random.percent(40) => random.pick(&[State::IdleSpent, State::IdleRepeatable]),
        13 => random.pick(&STATES[1..]),
        15 if random.percent(40) => State::Running,
        16 => random.pick(&[State::Collect, State::Collect, State::Replying]),
        17 if random.percent(30) => random.pick(&held),
        17 => random.pick(&[
            State::Collect,
            State::Running,
            State::Replying,
            State::IdleRepeatable,
        ]),
        _ => random.pick(&STATES),
    };
    let mut server = ServerSide::sound_record(state, random);
    server.number = server.number.clamp(1, u32::MAX - 1);
    if base == 16 {
        server.incoming.slots[0].get_or_insert(3);
    }
    server
}

fn base_pdu(base: u8, server: &Server, random: &mut Random) -> Arriving {
    match base {
        0 => pdu::good(server, random),
        10 => pdu::other_type(server, random),
        11 => {
            let mut arriving = pdu::request(server, random);
            set_maybe_or_broadcast(&mut arriving, random);
            arriving
        }
        12 => pdu::any_impossible(server, random),
        13 => old_pdu(server, random),
        14 => pdu::any_malformed(server, random),
        15 => pdu::without_a_row(server, random),
        16 if server.state == State::Replying && random.percent(30) => {
            pdu::of_type(pdu_type::PING, server, random)
        }
        16 => pdu::repeated_request(server, random),
        _ => pdu::contradiction(server, random),
    }
}

/// A request that is spent, or any older PDU.
fn old_pdu(server: &Server, random: &mut Random) -> Arriving {
    let mut request = pdu::repeated_request(server, random);
    match server.state {
        State::IdleSpent => return request,
        State::IdleRepeatable if random.percent(60) => {
            request.header.flags1 &= !flags1::IDEMPOTENT;
            return request;
        }
        _ => {}
    }
    let arriving = match random.between(0, 9) {
        0..=3 => request,
        4..=5 => pdu::without_a_row(server, random),
        6 => pdu::any_malformed(server, random),
        7 => pdu::contradiction(server, random),
        _ => pdu::good(server, random),
    };
    pdu::older(arriving, server, random)
}

/// Two of three records have the timer.
pub fn defects_at_timer(turn: usize, author: &mut Author) {
    let mut choices = Choices::of(turn);
    let state = match choices.below(3) {
        0 => choices.pick(&STATES),
        1 => State::HeldData,
        _ => State::HeldFault,
    };
    timer_with_defects((state, Resend), &mut choices, |_, _| {}, author);
}

/// Every second record can take a reply.
pub fn defects_at_reply(turn: usize, author: &mut Author) {
    let mut choices = Choices::of(turn);
    let state = any_or::<ServerSide>(State::Running, &mut choices);
    let server = ServerSide::sound_record(state, &mut author.random);
    let length = match choices.bool() {
        true => OTHER_LENGTHS[turn / 4 % OTHER_LENGTHS.len()],
        false => message_length(&mut author.random),
    };
    let length = set_with_length(server, length, turn, &mut choices, author);
    author.reply(length);
}

/// Every second record can take a fault.
pub fn defects_at_fault(turn: usize, author: &mut Author) {
    let mut choices = Choices::of(turn);
    let state = any_or::<ServerSide>(State::Running, &mut choices);
    let random = &mut author.random;
    let mut server = ServerSide::sound_record(state, random);
    let lends_wrong = choices.bool();
    let counter = choices.pick(&[server.tickets.counter, u64::MAX, u64::MAX - 1]);
    server.set_counter(counter);
    server.call.idempotent = random.percent(25);
    if choices.bool() {
        server.break_any_rule(random);
    }
    event_with_lend(server, lends_wrong, author, |author| author.fault());
}
