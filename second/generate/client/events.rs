//! The events of a client: scenes, each a few events on one record.
//!
//! What must not be missed goes round by the turns of a scene; the rest is random.

use crate::bench::bench::Bench;
use crate::codec::pdu::pdu_type;
use crate::generate::arriving::Arriving;
use crate::generate::client::author::Author;
use crate::generate::client::calls::whole_call;
use crate::generate::client::cancels::{cancel_ack_case, cancel_armed, local_cancel, other_ticket};
use crate::generate::client::cases::{
    arrival_row, broken_record, first_fragment, fragment_case, impossible_number, malformed_body,
    no_ticket_left,
};
use crate::generate::client::defects::{
    damaged_arrival, defects_at_arrival, defects_at_cancel, defects_at_start, defects_at_timer,
    refused_arrival,
};
use crate::generate::defects::defects_at_transmit;
use crate::generate::parts::message_length;
use crate::generate::random::Random;
use crate::generate::scenes::{self, any_message_out, any_record, play_scenes, Scene};
use crate::records::client::{Client, ClientSide, State, TimerKind, TIMERS};

/// The scenes of one round, each with how often it comes.
const ROUND: [(Scene<ClientSide>, usize); 22] = [
    (broken_record, 3),
    (any_record, 5),
    (any_message_out, 2),
    (defects_at_arrival, 12),
    (refused_arrival, 2),
    (damaged_arrival, 4),
    (impossible_number, 2),
    (malformed_body, 3),
    (arrival_row, 2),
    (fragment_case, 1),
    (first_fragment, 1),
    (no_ticket_left, 1),
    (defects_at_start, 2),
    (defects_at_transmit, 4),
    (defects_at_timer, 5),
    (defects_at_cancel, 3),
    (local_cancel, 1),
    (cancel_ack_case, 3),
    (cancel_armed, 2),
    (other_ticket, 1),
    (wrong_lend, 1),
    (whole_call, 1),
];

/// So many events of scenes.
pub fn play(bench: Bench, seed: u64, events: u64) -> Bench {
    play_scenes(&ROUND, bench, seed, events)
}

fn wrong_lend(turn: usize, author: &mut Author) {
    scenes::wrong_lend(turn, 2, author);
}

/// One of the timers that a state names; any where it names none.
pub fn any_timer_of(state: State, random: &mut Random) -> TimerKind {
    let named: Vec<TimerKind> = TIMERS
        .into_iter()
        .filter(|kind| state.names(*kind))
        .collect();
    match named[..] {
        [] => random.pick(&TIMERS),
        _ => random.pick(&named),
    }
}

#[derive(Clone, Copy)]
enum Happening {
    Start,
    Cancel,
    CancelAck,
    Transmit,
    Response,
    RepeatedResponse,
    Fack,
    Failure,
    Working,
    Nocall,
    Timer,
    LateTimer,
    HandUp,
    Other,
}

const HAPPENINGS: [Happening; 14] = [
    Happening::Start,
    Happening::Cancel,
    Happening::CancelAck,
    Happening::Transmit,
    Happening::Response,
    Happening::RepeatedResponse,
    Happening::Fack,
    Happening::Failure,
    Happening::Working,
    Happening::Nocall,
    Happening::Timer,
    Happening::LateTimer,
    Happening::HandUp,
    Happening::Other,
];

/// In how many of a hundred cases each of them happens in a state.
fn shares(state: State) -> [usize; 14] {
    match state {
        State::Queued => [46, 2, 2, 8, 6, 0, 4, 4, 2, 2, 6, 2, 12, 4],
        State::SendFrags => [4, 8, 4, 33, 14, 4, 9, 5, 4, 4, 4, 1, 3, 3],
        State::Dispatched => [2, 6, 4, 2, 20, 4, 10, 6, 11, 12, 13, 4, 3, 3],
        State::ReceiveFrags => [2, 6, 4, 2, 33, 8, 7, 6, 4, 4, 13, 4, 4, 3],
        State::AckPending => [18, 2, 2, 4, 6, 6, 4, 4, 4, 4, 26, 8, 8, 4],
        State::Complete | State::Fault => [38, 2, 2, 6, 8, 8, 6, 6, 3, 3, 5, 0, 9, 4],
    }
}

/// An event that mostly fits the state.
pub fn any_event(author: &mut Author) {
    let state = author.record().state;
    let happening = author.random.share(&HAPPENINGS, &shares(state));
    let kind = match author.random.percent(85) {
        true => any_timer_of(state, &mut author.random),
        false => author.random.pick(&TIMERS),
    };
    match happening {
        Happening::Start => {
            let length = message_length(&mut author.random);
            author.start(length);
        }
        Happening::Cancel => author.cancel(),
        Happening::Transmit => author.transmit(),
        Happening::Timer => author.timer(kind),
        Happening::LateTimer => author.late_timer(kind),
        Happening::HandUp => {
            let number = author.random.pick(&[0, 1, 2, 31, 32, 255]);
            author.hand_up(number);
        }
        _ => author.arrive(|client, random| any_arriving(happening, client, random)),
    }
}

fn any_arriving(happening: Happening, client: &Client, random: &mut Random) -> Arriving {
    let failure = random.pick(&[pdu_type::FAULT, pdu_type::REJECT]);
    let pdu_type = match happening {
        Happening::Response => return Arriving::response(client, random),
        Happening::RepeatedResponse => return Arriving::repeated_response(client, random),
        Happening::Fack => return Arriving::fack(client, random),
        Happening::CancelAck => return Arriving::cancel_ack(client, random),
        Happening::Failure => failure,
        Happening::Working => pdu_type::WORKING,
        Happening::Nocall => pdu_type::NOCALL,
        _ => return Arriving::other_type(client, random),
    };
    Arriving::of_type(pdu_type, client, random)
}
