//! What of demand 3 is owed of cancels must be told as broken where it is.

use super::demand::{arrive_changed, change, said_of, Case};
use crate::machines::effect::{Effect, Notice};
use crate::machines::event::Event;
use crate::records::client::{ClientEvent, ClientSide, State, TimerKind};
use crate::records::server::ServerSide;
use crate::systems::demand_side::Broken;
use crate::systems::run::Author;
use crate::systems::step::{Joined, System};
use crate::systems::stories::step;
use crate::systems::stories::Telling::{
    self, Cancel, ClientTransmit, Fault, Start, ToClient, ToServer,
};

const STARTED: [Telling; 1] = [Start(false, 1)];
const CANCELLED: [Telling; 2] = [Start(false, 1), Cancel];

/// A cancel of a call that is collected.
const COLLECTED: [Telling; 5] = [
    Start(false, 2_000),
    ClientTransmit,
    ToServer(0),
    Cancel,
    ToServer(1),
];

/// A cancel of a call that runs is sent, and then comes.
const SENT: [Telling; 4] = [Start(false, 1), ClientTransmit, ToServer(0), Cancel];
const NOTICED: [Telling; 5] = [
    Start(false, 1),
    ClientTransmit,
    ToServer(0),
    Cancel,
    ToServer(1),
];
const FAULTED: [Telling; 5] = [Start(false, 1), ClientTransmit, ToServer(0), Cancel, Fault];

/// Each case: the story, what goes wrong, and how it is told.
pub const CASES: [Case; 15] = [
    (
        &CANCELLED,
        ends_with_the_timer,
        "a call is over with a timer armed",
    ),
    (
        &CANCELLED,
        waits_for_the_ack,
        "a side has other tickets armed",
    ),
    (&CANCELLED, takes_a_late_timer, "a late timer is taken"),
    (
        &CANCELLED,
        loses_the_timer,
        "a side has other tickets armed",
    ),
    (
        &CANCELLED,
        arms_again,
        "a local cancel arms a timer that is armed",
    ),
    (
        &STARTED,
        cancels_what_is_over,
        "a local cancel of a call that is not active",
    ),
    (&STARTED, counts_wrong, "a local cancel has another number"),
    (&COLLECTED, stays_armed, "a side has other tickets armed"),
    (
        &COLLECTED,
        takes_another_ack,
        "a cancel_ack is taken that is not of the last cancel",
    ),
    (
        &COLLECTED,
        takes_an_ack_too_late,
        "a cancel_ack is taken that is not of the last cancel",
    ),
    (
        &COLLECTED,
        |system, author| notices::<1>(system, author),
        "a cancel is noticed of a call that does not run",
    ),
    (
        &FAULTED,
        |system, author| notices::<1>(system, author),
        "a cancel is noticed of a call that does not run",
    ),
    (
        &NOTICED,
        notices_again,
        "a cancel is noticed that is not above the last",
    ),
    (
        // Cancel 1 becomes 3.
        &SENT,
        |system, author| arrive_changed::<ServerSide>(1, 84, 2, system, author),
        "a cancel is noticed that was not sent",
    ),
    (
        // The notice of a cancel at a request.
        &SENT,
        |system, author| notices::<0>(system, author),
        "the server gives another notice than a dispatch or a cancel",
    ),
];

fn ends_with_the_timer(system: &mut System, author: &mut Author) -> Result<(), Broken> {
    change::<ClientSide>(author, |client| client.state = State::Fault);
    let event = Event::Transmit { message: &[] };
    said_of::<ClientSide>(&event, Effect::nothing(), system, author)
}

/// Only the three active states name the timer.
fn waits_for_the_ack(system: &mut System, author: &mut Author) -> Result<(), Broken> {
    change::<ClientSide>(author, |client| client.state = State::AckPending);
    let event = Event::Transmit { message: &[] };
    said_of::<ClientSide>(&event, Effect::nothing(), system, author)
}

fn takes_a_late_timer(system: &mut System, author: &mut Author) -> Result<(), Broken> {
    change::<ClientSide>(author, |client| client.own.cancel = Some(0));
    system.timer::<ClientSide>(TimerKind::Cancel, author)
}

/// A transmit disarms it, which it must not.
fn loses_the_timer(system: &mut System, author: &mut Author) -> Result<(), Broken> {
    change::<ClientSide>(author, |client| client.own.cancel = None);
    step(ClientTransmit, system, author)
}

fn arms_again(system: &mut System, author: &mut Author) -> Result<(), Broken> {
    let before = author.bench.record::<ClientSide>().clone();
    change::<ClientSide>(author, |client| {
        client.own.cancel_number += 1;
        client.own.cancel = client.tickets.arm();
    });
    super::demand::said::<ClientSide>(
        &before,
        &Event::Own(ClientEvent::Cancel),
        &Ok(Effect::nothing()),
        system,
        author,
    )
}

fn cancels_what_is_over(system: &mut System, author: &mut Author) -> Result<(), Broken> {
    change::<ClientSide>(author, |client| client.state = State::Fault);
    let event = Event::Own(ClientEvent::Cancel);
    said_of::<ClientSide>(&event, Effect::nothing(), system, author)
}

fn counts_wrong(system: &mut System, author: &mut Author) -> Result<(), Broken> {
    change::<ClientSide>(author, |client| client.own.cancel_number = 4);
    step(Cancel, system, author)
}

/// The datagram at a place among those sent to a side.
fn sent_to<S: Joined>(place: usize, system: &mut System) -> Vec<u8> {
    let sent = S::halves(system).0.line.sent(place);
    sent.unwrap_or_default()
}

/// A cancel_ack is taken and disarms nothing.
fn stays_armed(system: &mut System, author: &mut Author) -> Result<(), Broken> {
    let datagram = &sent_to::<ClientSide>(1, system);
    let event = Event::Arrive { datagram };
    said_of::<ClientSide>(&event, Effect::nothing(), system, author)
}

/// A cancel has been sent meanwhile, but the client has forgotten that.
fn takes_another_ack(system: &mut System, author: &mut Author) -> Result<(), Broken> {
    step(Cancel, system, author)?;
    change::<ClientSide>(author, |client| client.own.cancel_number = 1);
    step(ToClient(1), system, author)
}

/// The cancel_ack comes once more, when nothing is armed, and is said to be taken.
fn takes_an_ack_too_late(system: &mut System, author: &mut Author) -> Result<(), Broken> {
    step(ToClient(1), system, author)?;
    let datagram = &sent_to::<ClientSide>(1, system);
    let event = Event::Arrive { datagram };
    said_of::<ClientSide>(&event, Effect::nothing(), system, author)
}

/// The notice of a cancel is given at the datagram of the place.
fn notices<const PLACE: usize>(system: &mut System, author: &mut Author) -> Result<(), Broken> {
    let datagram = &sent_to::<ServerSide>(PLACE, system);
    let event = Event::Arrive { datagram };
    said_of::<ServerSide>(&event, Effect::of_notice(Notice::Cancel), system, author)
}

/// The number seen is forgotten while the call runs, and the same cancel comes once more.
fn notices_again(system: &mut System, author: &mut Author) -> Result<(), Broken> {
    change::<ServerSide>(author, |server| server.own.cancel_number = 0);
    step(ToServer(1), system, author)
}
