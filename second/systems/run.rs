//! Runs of a fresh client and a fresh server, joined by a network that loses, repeats and delays.
//! After every event demand 3 is checked.

use crate::bench::bench::Bench;
use crate::generate::author;
use crate::generate::parts::any_call;
use crate::generate::random::Random;
use crate::records::client::{ClientSide, State, TimerKind, TIMERS};
use crate::records::outgoing::MESSAGE_LIMIT;
use crate::records::server::{self, Resend, ServerSide};
use crate::systems::demand_side::Broken;
use crate::systems::habits::Habits;
use crate::systems::network::Weather;
use crate::systems::step::System;
use crate::systems::stories;

/// The author of the events of joined sides.
pub struct Systems;

pub type Author = author::Author<Systems>;

/// A run ends after so many tries.
const STEPS: u64 = 500;

/// The stories are told first, and again after so many runs.
const RUNS_BETWEEN_STORIES: u64 = 50;

/// The fragments that are asked for, the first one more often.
const HANDED_UP: [u16; 5] = [0, 0, 1, 31, 32];

/// So many events of runs.
pub fn play(bench: Bench, seed: u64, events: u64) -> Bench {
    let mut author = Author::new(bench, seed, events);
    for number in 0.. {
        if author.has_finished() {
            break;
        }
        author.bench.coverage.begin_system();
        let result = match number % RUNS_BETWEEN_STORIES {
            0 => stories::tell(&mut author),
            _ => run(&mut author),
        };
        author.bench.coverage.end_system();
        if let Err(broken) = result {
            author.bench.findings.break_demand(broken);
        }
    }
    author.into_bench()
}

/// One run, which ends where demand 3 does not hold.
fn run(author: &mut Author) -> Result<(), Broken> {
    let tickets = [0; 2].map(|_| ticket_counter(&mut author.random));
    set_fresh(tickets, author);
    let habits = Habits::any(&mut author.random);
    let mut system = System::new(&mut author.random);
    for _ in 0..STEPS {
        let result = next_event(author, &mut system, habits);
        author.lend_right();
        result?;
    }
    Ok(())
}

/// An event; now and then the weather changes, or a buffer of a wrong length is lent.
fn next_event(author: &mut Author, system: &mut System, habits: Habits) -> Result<(), Broken> {
    if author.random.percent(2) {
        system.weather = Weather::any(&mut author.random);
    }
    if author.random.percent(2) {
        author.lend_wrong();
    }
    any_event(author, system, habits)
}

/// A fresh client and a fresh server of one activity, with the ticket counters given.
pub fn set_fresh(tickets: [u64; 2], author: &mut Author) {
    let activity = author.random.uuid();
    let boot = author.random.field_u32();
    author.fresh_of::<ClientSide>(&activity, (), tickets[0]);
    author.fresh_of::<ServerSide>(&activity, boot, tickets[1]);
}

/// Now and then the tickets are used up within the run.
fn ticket_counter(random: &mut Random) -> u64 {
    match random.between(0, 99) {
        0..=14 => u64::MAX - random.between(0, 40) as u64,
        15..=69 => random.between(0, 9) as u64,
        _ => random.u64() >> 1,
    }
}

#[derive(Clone, Copy)]
enum Happening {
    Start,
    Cancel,
    Transmit,
    Arrive,
    Wait,
    Ack,
    CancelTimer,
    LateTimer,
    HandUp,
    Server(ServerHappening),
}

#[derive(Clone, Copy)]
enum ServerHappening {
    Transmit,
    Arrive,
    Resend,
    LateTimer,
    Reply,
    Fault,
    HandUp,
}

/// What fits a state happens so often beside the others, and what does not fit now and then.
fn weight(fits: bool, weight: usize) -> usize {
    match fits {
        true => weight,
        false => 1,
    }
}

fn client_weights(author: &Author, system: &System, habits: Habits) -> [(Happening, usize); 9] {
    let client = author.bench.record::<ClientSide>();
    let state = client.state;
    let air = system.weather.to_client;
    let start = match state {
        State::AckPending => 8,
        _ => weight(state.may_start(), 40),
    };
    let transmit = weight(state == State::SendFrags, 90);
    let arrive = weight(system.client.line.is_busy(), 60) + air.repeats / 3;
    let wait = weight(state.names(TimerKind::Wait), system.weather.waits);
    let cancel = weight(state.is_active(), habits.cancels);
    let cancel_timer = weight(client.own.cancel.is_some(), system.weather.cancels);
    [
        (Happening::Start, start),
        (Happening::Cancel, cancel),
        (Happening::Transmit, transmit),
        (Happening::Arrive, arrive),
        (Happening::Wait, wait),
        (Happening::Ack, weight(state.names(TimerKind::Ack), 12)),
        (Happening::CancelTimer, cancel_timer),
        (Happening::LateTimer, 2),
        (Happening::HandUp, 2),
    ]
}

fn server_weights(author: &Author, system: &System, habits: Habits) -> [(Happening, usize); 7] {
    let server = author.bench.record::<ServerSide>();
    let state = server.state;
    let faults = match server.own.cancel_number {
        0 => habits.faults,
        _ => habits.faults_of_cancelled,
    };
    let air = system.weather.to_server;
    let is_running = state == server::State::Running;
    let is_replying = state == server::State::Replying;
    let arrive = weight(system.server.line.is_busy(), 60) + air.repeats / 3;
    let resend = weight(state.is_held(), system.weather.resends);
    let weights = [
        (ServerHappening::Transmit, weight(is_replying, 90)),
        (ServerHappening::Arrive, arrive),
        (ServerHappening::Resend, resend),
        (ServerHappening::LateTimer, 2),
        (ServerHappening::Reply, weight(is_running, 40)),
        (ServerHappening::Fault, weight(is_running, faults)),
        (ServerHappening::HandUp, 2),
    ];
    weights.map(|(happening, weight)| (Happening::Server(happening), weight))
}

fn any_happening(author: &mut Author, system: &System, habits: Habits) -> Happening {
    let mut weights = client_weights(author, system, habits).to_vec();
    weights.extend(server_weights(author, system, habits));
    let (happenings, weights): (Vec<_>, Vec<_>) = weights.into_iter().unzip();
    author.random.share(&happenings, &weights)
}

fn any_event(author: &mut Author, system: &mut System, habits: Habits) -> Result<(), Broken> {
    match any_happening(author, system, habits) {
        Happening::Start => {
            let mut call = any_call(&mut author.random);
            call.idempotent = author.random.percent(habits.idempotent);
            let length = message_length(habits, &mut author.random);
            system.start(call, length, author)
        }
        Happening::Cancel => system.cancel(author),
        Happening::Transmit => {
            let wrong = wrong_length(&mut author.random);
            system.transmit::<ClientSide>(wrong, author)
        }
        Happening::Arrive => system.arrive::<ClientSide>(author),
        Happening::Wait => system.timer::<ClientSide>(TimerKind::Wait, author),
        Happening::Ack => system.timer::<ClientSide>(TimerKind::Ack, author),
        Happening::CancelTimer => system.timer::<ClientSide>(TimerKind::Cancel, author),
        Happening::LateTimer => {
            let kind = author.random.pick(&TIMERS);
            system.late_timer::<ClientSide>(kind, author)
        }
        Happening::HandUp => {
            let number = author.random.pick(&HANDED_UP);
            author.hand_up_of::<ClientSide>(number);
            Ok(())
        }
        Happening::Server(happening) => server_event(happening, author, system, habits),
    }
}

fn server_event(
    happening: ServerHappening,
    author: &mut Author,
    system: &mut System,
    habits: Habits,
) -> Result<(), Broken> {
    match happening {
        ServerHappening::Transmit => {
            let wrong = wrong_length(&mut author.random);
            system.transmit::<ServerSide>(wrong, author)
        }
        ServerHappening::Arrive => system.arrive::<ServerSide>(author),
        ServerHappening::Resend => system.timer::<ServerSide>(Resend, author),
        ServerHappening::LateTimer => system.late_timer::<ServerSide>(Resend, author),
        ServerHappening::Reply => {
            let length = message_length(habits, &mut author.random);
            system.reply(length, author)
        }
        ServerHappening::Fault => system.fault(author),
        ServerHappening::HandUp => {
            let number = author.random.pick(&HANDED_UP);
            author.hand_up_of::<ServerSide>(number);
            Ok(())
        }
    }
}

/// Lengths of messages; now and then one over the limit.
fn message_length(habits: Habits, random: &mut Random) -> u32 {
    if random.percent(habits.several) {
        return random.pick(&[1_393, 2_784, 2_785, 4_000]);
    }
    match random.between(0, 99) {
        0..=3 => MESSAGE_LIMIT as u32,
        4..=5 => random.pick(&[44_545, 65_536, u32::MAX]),
        6..=50 => random.pick(&[0, 1, 1_391, 1_392]),
        _ => random.pick(&[0, 1, 1_391, 1_392, 1_393, 2_784]),
    }
}

/// Now and then another message than the one being sent is lent.
fn wrong_length(random: &mut Random) -> Option<usize> {
    let wrong = random.pick(&[0, 1, 1_392, 1_393, 44_544, 44_545, 65_536]);
    random.percent(3).then_some(wrong)
}
