//! The events of a server: scenes, each a few events on one record.
//!
//! What must not be missed goes round by the turns of a scene; the rest is random.

use crate::bench::bench::Bench;
use crate::codec::pdu::pdu_type;
use crate::generate::arriving::Arriving;
use crate::generate::defects::defects_at_transmit;
use crate::generate::parts::message_length;
use crate::generate::random::Random;
use crate::generate::scenes::{any_message_out, any_record, play_scenes, wrong_lend, Scene};
use crate::generate::server::author::Author;
use crate::generate::server::calls::whole_call;
use crate::generate::server::cancels::{cancel_case, cancel_while_running, forgotten_cancel};
use crate::generate::server::cases::{
    broken_record, changed_call, forbidden_bits, hand_up_case, impossible_number, malformed_body,
    no_ticket_left, old_or_without_a_row, ticket_needed,
};
use crate::generate::server::defects::{
    crossed_defects, damaged_arrival, defects_at_arrival, defects_at_fault, defects_at_reply,
    defects_at_timer, refused_arrival,
};
use crate::generate::server::pdus as pdu;
use crate::generate::server::rows::{
    acknowledgement, equal_request, fragment_case, newer_request, ping_row, replay_row,
};
use crate::records::server::{Resend, Server, ServerSide, State};

/// The scenes of one round, each with how often it comes.
const ROUND: [(Scene<ServerSide>, usize); 29] = [
    (broken_record, 3),
    (any_record, 3),
    (any_message_out, 2),
    (defects_at_arrival, 10),
    (crossed_defects, 3),
    (forbidden_bits, 1),
    (old_or_without_a_row, 2),
    (hand_up_case, 1),
    (ticket_needed, 1),
    (refused_arrival, 2),
    (damaged_arrival, 4),
    (impossible_number, 2),
    (malformed_body, 2),
    (newer_request, 3),
    (equal_request, 2),
    (ping_row, 2),
    (replay_row, 1),
    (acknowledgement, 2),
    (fragment_case, 2),
    (changed_call, 2),
    (no_ticket_left, 1),
    (defects_at_transmit, 5),
    (defects_at_timer, 4),
    (defects_at_reply, 3),
    (defects_at_fault, 2),
    (cancel_case, 3),
    (cancel_while_running, 1),
    (forgotten_cancel, 1),
    (last_scenes, 1),
];

/// So many events of scenes.
pub fn play(bench: Bench, seed: u64, events: u64) -> Bench {
    play_scenes(&ROUND, bench, seed, events)
}

fn last_scenes(turn: usize, author: &mut Author) {
    wrong_lend(turn, 1, author);
    whole_call(turn, author);
}

#[derive(Clone, Copy)]
enum Happening {
    Transmit,
    Request,
    RepeatedRequest,
    NewerRequest,
    Ping,
    Fack,
    Ack,
    Cancel,
    Timer,
    LateTimer,
    Reply,
    Fault,
    HandUp,
    Other,
}

const HAPPENINGS: [Happening; 14] = [
    Happening::Transmit,
    Happening::Request,
    Happening::RepeatedRequest,
    Happening::NewerRequest,
    Happening::Ping,
    Happening::Fack,
    Happening::Ack,
    Happening::Cancel,
    Happening::Timer,
    Happening::LateTimer,
    Happening::Reply,
    Happening::Fault,
    Happening::HandUp,
    Happening::Other,
];

/// In how many of a hundred cases each of them happens in a state.
fn shares(state: State) -> [usize; 14] {
    match state {
        State::IdleFresh | State::IdleSpent => [6, 34, 4, 16, 7, 5, 5, 3, 4, 2, 3, 3, 6, 2],
        State::IdleRepeatable => [4, 42, 8, 12, 7, 4, 4, 3, 3, 1, 3, 2, 5, 2],
        State::Collect => [3, 52, 8, 5, 7, 3, 3, 4, 2, 1, 3, 2, 5, 2],
        State::Running => [3, 8, 6, 5, 8, 3, 3, 12, 2, 1, 30, 12, 4, 3],
        State::Replying => [44, 2, 6, 4, 6, 13, 8, 5, 2, 1, 2, 2, 3, 2],
        State::HeldData | State::HeldFault => [2, 13, 4, 4, 11, 11, 11, 5, 23, 6, 2, 2, 4, 2],
    }
}

/// An event that mostly fits the state.
pub fn any_event(author: &mut Author) {
    let state = author.record().state;
    let happening = author.random.share(&HAPPENINGS, &shares(state));
    match happening {
        Happening::Transmit => author.transmit(),
        Happening::Timer => author.timer(Resend),
        Happening::LateTimer => author.late_timer(Resend),
        Happening::Reply => {
            let length = message_length(&mut author.random);
            author.reply(length);
        }
        Happening::Fault => author.fault(),
        Happening::HandUp => {
            let number = author.random.pick(&[0, 1, 2, 31, 32, 255]);
            author.hand_up(number);
        }
        _ => author.arrive(|server, random| any_arriving(happening, server, random)),
    }
}

fn any_arriving(happening: Happening, server: &Server, random: &mut Random) -> Arriving {
    match happening {
        Happening::Request => pdu::request(server, random),
        Happening::RepeatedRequest => pdu::repeated_request(server, random),
        Happening::NewerRequest => {
            let request = pdu::repeated_request(server, random);
            pdu::newer(request, server, random)
        }
        Happening::Ping => pdu::ping(server, random),
        Happening::Fack => Arriving::fack(server, random),
        Happening::Ack => pdu::of_type(pdu_type::ACK, server, random),
        Happening::Cancel => pdu::cancel(server, random),
        _ => pdu::other_type(server, random),
    }
}
