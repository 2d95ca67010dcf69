//! Demand 3 must be told as broken where it is. Each case leads two sides through a story to a step
//! that no sound side takes.

use super::all::check;
use super::checked::Checked;
use super::demand_of_cancels;
use crate::bench::bench::{Bench, Outcome};
use crate::door::record_bytes::encode;
use crate::machines::effect::{Effect, Notice};
use crate::machines::event::Event;
use crate::machines::refusal::Refusal;
use crate::records::client::{Client, ClientSide, State as ClientState, TimerKind};
use crate::records::incoming::Incoming;
use crate::records::record::Record;
use crate::records::server::{Server, ServerSide, State as ServerState};
use crate::records::timer::RETRY_LIMIT;
use crate::systems::demand_side::{Broken, Step};
use crate::systems::run::{set_fresh, Author};
use crate::systems::step::{Joined, System};
use crate::systems::stories::step;
use crate::systems::stories::Telling::{
    self, ClientTransmit, Reply, Resend, ServerTransmit, Start, ToClient, ToServer, Wait,
};

/// What goes wrong behind a story.
type Wrong = fn(&mut System, &mut Author) -> Result<(), Broken>;

/// The story, what goes wrong, and how it is told.
pub type Case = (&'static [Telling], Wrong, &'static str);

const STARTED: [Telling; 1] = [Start(false, 1)];
const SENT: [Telling; 2] = [Start(false, 1), ClientTransmit];
const DISPATCHED: [Telling; 3] = [Start(false, 1), ClientTransmit, ToServer(0)];

/// Of a request of two fragments the first has come, and its fack is under way.
const FACKED: [Telling; 4] = [
    Start(false, 2_000),
    ClientTransmit,
    ClientTransmit,
    ToServer(0),
];

/// The first of two fragments of a reply is sent, and comes.
const REPLIED: [Telling; 5] = [
    Start(false, 1),
    ClientTransmit,
    ToServer(0),
    Reply(2_000),
    ServerTransmit,
];
const RECEIVED: [Telling; 6] = [
    Start(false, 1),
    ClientTransmit,
    ToServer(0),
    Reply(2_000),
    ServerTransmit,
    ToClient(0),
];

/// The cases of what is owed without cancels.
const CASES: [Case; 16] = [
    (&STARTED, starts_afresh, "a start has another number"),
    (
        &DISPATCHED,
        runs_again,
        "a call that is not idempotent is dispatched twice",
    ),
    (
        &SENT,
        |system, author| arrive_changed::<ServerSide>(0, 64, 1, system, author),
        "a dispatch of a call that was not started",
    ),
    (
        &SENT,
        |system, author| arrive_changed::<ServerSide>(0, 80, 1, system, author),
        "a dispatch is handed up another message",
    ),
    (&SENT, replies_at_once, "a reply before any dispatch"),
    (
        &REPLIED,
        |system, author| arrive_changed::<ClientSide>(0, 80, 1, system, author),
        "the client hands up what is no part of a reply",
    ),
    (
        &RECEIVED,
        forgets_a_reply,
        "what the client hands up does not only grow",
    ),
    (
        // The first fragment is marked last.
        &REPLIED,
        |system, author| arrive_changed::<ClientSide>(0, 2, 2, system, author),
        "the client is complete without a whole reply",
    ),
    (
        &SENT,
        gives_another_notice,
        "the server gives another notice than a dispatch or a cancel",
    ),
    (&SENT, takes_a_late_timer, "a late timer is taken"),
    (&FACKED, changes_a_ticket, "a side has other tickets armed"),
    (
        &SENT,
        ends_with_a_timer,
        "a call is over with a timer armed",
    ),
    (&SENT, counts_too_far, "a record breaks its rules"),
    (&DISPATCHED, loses_slots, "a slot buffer has other bytes"),
    (&SENT, sends_at_a_refusal, "a refusal changes something"),
    (
        &STARTED,
        changes_at_a_refusal,
        "a refusal changes something",
    ),
];

pub fn self_test() -> Result<(), &'static str> {
    let library = Checked::default();
    let mut author = Author::new(Bench::new(Box::new(library)), 1, u64::MAX);
    for (story, wrong, told) in CASES.iter().chain(&demand_of_cancels::CASES) {
        set_fresh([0, 0], &mut author);
        let mut system = System::new(&mut author.random);
        for telling in *story {
            let is_good = step(*telling, &mut system, &mut author).is_ok();
            check(is_good, "demand 3 before something goes wrong")?;
        }
        let broken = Err(Broken::from(*told));
        check(wrong(&mut system, &mut author) == broken, told)?;
    }
    Ok(())
}

/// The record on the bench becomes another, and what was put is gone.
pub fn change<S: Joined>(author: &mut Author, change: fn(&mut Record<S>)) {
    let mut record = author.bench.record::<S>().clone();
    change(&mut record);
    author.bench.set_bytes::<S>(&encode(&record));
}

/// A datagram that was sent to a side arrives with bits of one byte turned.
pub fn arrive_changed<S: Joined>(
    place: usize,
    at: usize,
    bits: u8,
    system: &mut System,
    author: &mut Author,
) -> Result<(), Broken> {
    match S::halves(system).0.line.sent(place) {
        Some(mut datagram) => {
            datagram[at] ^= bits;
            system.arrive_of::<S>(&datagram, author)
        }
        None => Ok(()),
    }
}

/// An event is said to have had the outcome; what stands on the bench is what it left.
pub fn said<S: Joined>(
    before: &Record<S>,
    event: &Event<S>,
    outcome: &Outcome,
    system: &mut System,
    author: &Author,
) -> Result<(), Broken> {
    system.demand.check::<S>(&Step {
        before,
        event,
        message: &[],
        outcome,
        bench: &author.bench,
    })
}

/// The same of an event that is done and left the record as it was.
pub fn said_of<S: Joined>(
    event: &Event<S>,
    effect: Effect,
    system: &mut System,
    author: &Author,
) -> Result<(), Broken> {
    said::<S>(author.bench.record(), event, &Ok(effect), system, author)
}

/// The same of a transmit that had the outcome.
fn said_of_the_record<S: Joined>(
    outcome: &Outcome,
    system: &mut System,
    author: &Author,
) -> Result<(), Broken> {
    let event = Event::Transmit { message: &[] };
    said::<S>(author.bench.record(), &event, outcome, system, author)
}

fn starts_afresh(system: &mut System, author: &mut Author) -> Result<(), Broken> {
    change::<ClientSide>(author, |client| *client = Client::fresh(client.activity, 0));
    step(Start(false, 1), system, author)
}

fn runs_again(system: &mut System, author: &mut Author) -> Result<(), Broken> {
    change::<ServerSide>(author, |server| {
        *server = Server::fresh(server.activity, 0, 0);
    });
    step(ToServer(0), system, author)
}

fn replies_at_once(system: &mut System, author: &mut Author) -> Result<(), Broken> {
    change::<ServerSide>(author, |server| server.state = ServerState::Running);
    step(Reply(1), system, author)
}

fn forgets_a_reply(system: &mut System, author: &mut Author) -> Result<(), Broken> {
    change::<ClientSide>(author, |client| client.incoming = Incoming::empty());
    step(Wait, system, author)
}

fn gives_another_notice(system: &mut System, author: &mut Author) -> Result<(), Broken> {
    let outcome = Ok(Effect::of_notice(Notice::Last));
    said_of_the_record::<ServerSide>(&outcome, system, author)
}

fn takes_a_late_timer(system: &mut System, author: &mut Author) -> Result<(), Broken> {
    change::<ClientSide>(author, |client| client.own.wait = Some(0));
    system.timer::<ClientSide>(TimerKind::Wait, author)
}

/// A fack is taken, which arms nothing.
fn changes_a_ticket(system: &mut System, author: &mut Author) -> Result<(), Broken> {
    change::<ClientSide>(author, |client| client.own.wait = Some(0));
    step(ToClient(0), system, author)
}

fn ends_with_a_timer(system: &mut System, author: &mut Author) -> Result<(), Broken> {
    change::<ClientSide>(author, |client| client.state = ClientState::Complete);
    said_of_the_record::<ClientSide>(&Ok(Effect::nothing()), system, author)
}

fn counts_too_far(system: &mut System, author: &mut Author) -> Result<(), Broken> {
    change::<ClientSide>(author, |client| client.own.waits = RETRY_LIMIT + 1);
    said_of_the_record::<ClientSide>(&Ok(Effect::nothing()), system, author)
}

fn loses_slots(system: &mut System, author: &mut Author) -> Result<(), Broken> {
    change::<ServerSide>(author, |_| {});
    step(Resend, system, author)
}

/// What was sent last still lies in the PDU buffer.
fn sends_at_a_refusal(system: &mut System, author: &mut Author) -> Result<(), Broken> {
    said_of_the_record::<ClientSide>(&Err(Refusal::NoRow), system, author)
}

fn changes_at_a_refusal(system: &mut System, author: &mut Author) -> Result<(), Broken> {
    let before = Client::fresh([0; 16], 0);
    let event = Event::Transmit { message: &[] };
    said::<ClientSide>(&before, &event, &Err(Refusal::NoRow), system, author)
}
