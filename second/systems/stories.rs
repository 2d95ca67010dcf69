//! Runs that are told step by step, for what hardly ever comes about by chance.

use crate::records::call::Call;
use crate::records::client::{ClientSide, TimerKind};
use crate::records::server::{Resend, ServerSide};
use crate::systems::demand_side::Broken;
use crate::systems::run::{set_fresh, Author};
use crate::systems::step::{Joined, System};
use crate::systems::stories_of_cancels as cancels;
use crate::systems::stories_of_facks as facks;

/// A step of a story. A datagram is named by its place among those sent to a side.
#[derive(Clone, Copy)]
pub enum Telling {
    /// A call that is idempotent or not, with a message of so many bytes.
    Start(bool, u32),
    ClientTransmit,
    ToServer(usize),
    ToClient(usize),
    /// The local cancel.
    Cancel,
    Wait,
    Ack,
    /// The timer of the cancel.
    CancelTimer,
    Reply(u32),
    Fault,
    ServerTransmit,
    Resend,
}

use Telling::{ClientTransmit, Fault, Reply, ServerTransmit, Start, ToClient, ToServer, Wait};

/// The ticket counters of client and server, and the steps.
type Story = ([u64; 2], &'static [Telling]);

/// A call runs twice. Its second reply has two fragments; the second of these comes first, and the
/// first reply behind it. Call and first reply are one fragment each, so that nothing but replies
/// is sent to the client.
const TWO_REPLIES: [Telling; 11] = [
    Start(true, 1),
    ClientTransmit,
    ToServer(0),
    Reply(1),
    ServerTransmit,
    ToServer(0),
    Reply(2_000),
    ServerTransmit,
    ServerTransmit,
    ToClient(2),
    ToClient(0),
];

/// The same with a fault first, which comes behind the first fragment of the reply.
const FAULT_BEHIND_A_REPLY: [Telling; 10] = [
    Start(true, 1),
    ClientTransmit,
    ToServer(0),
    Fault,
    ToServer(0),
    Reply(2_000),
    ServerTransmit,
    ServerTransmit,
    ToClient(1),
    ToClient(0),
];

/// The server never hears the request, only pings. The last nocall comes twice, and the client gives
/// up, although it has cancelled the call. (A sixth WAIT would end the call too, since a nocall leaves
/// the count of these.)
const NO_CALL: [Telling; 25] = [
    Start(false, 1),
    ClientTransmit,
    Wait,
    ToServer(1),
    ToClient(0),
    ClientTransmit,
    Wait,
    ToServer(3),
    ToClient(1),
    ClientTransmit,
    Wait,
    ToServer(5),
    ToClient(2),
    ClientTransmit,
    Wait,
    ToServer(7),
    ToClient(3),
    ClientTransmit,
    Wait,
    ToServer(9),
    ToClient(4),
    ClientTransmit,
    Telling::Cancel,
    ToClient(4),
    Start(false, 1),
];

/// No ticket is left for an answer, or none to send it again.
const NO_TICKET: [Telling; 6] = [
    Start(false, 1),
    ClientTransmit,
    ToServer(0),
    Fault,
    Reply(1),
    ServerTransmit,
];
const LAST_TICKET: [Telling; 5] = [
    Start(false, 1),
    ClientTransmit,
    ToServer(0),
    Fault,
    Telling::Resend,
];

const STORIES: [Story; 14] = [
    ([0, 0], &TWO_REPLIES),
    ([0, 0], &FAULT_BEHIND_A_REPLY),
    ([0, 0], &NO_CALL),
    ([0, u64::MAX], &NO_TICKET),
    ([0, u64::MAX - 1], &LAST_TICKET),
    ([0, 0], &facks::RESEND_FROM_THE_MIDDLE),
    ([0, 0], &facks::RESEND_OF_ALL),
    ([0, 0], &facks::REPLAY_FROM_THE_MIDDLE),
    ([0, 0], &facks::BEGUN_AGAIN),
    ([0, 0], &cancels::ACKNOWLEDGED),
    ([0, 0], &cancels::NOT_HEARD),
    ([0, 0], &cancels::NOTICED_AGAIN),
    ([0, 0], &cancels::HEEDED),
    ([u64::MAX - 1, 0], &cancels::LAST_TICKET),
];

/// Tells all stories, each to two fresh sides.
pub fn tell(author: &mut Author) -> Result<(), Broken> {
    for (tickets, story) in STORIES {
        set_fresh(tickets, author);
        let mut system = System::new(&mut author.random);
        for telling in story {
            step(*telling, &mut system, author)?;
        }
    }
    Ok(())
}

/// Takes a step of a story.
pub fn step(telling: Telling, system: &mut System, author: &mut Author) -> Result<(), Broken> {
    match telling {
        Start(idempotent, length) => {
            let call = Call {
                idempotent,
                ..Call::none()
            };
            system.start(call, length, author)
        }
        ClientTransmit => system.transmit::<ClientSide>(None, author),
        ToServer(place) => deliver::<ServerSide>(place, system, author),
        ToClient(place) => deliver::<ClientSide>(place, system, author),
        Wait => system.timer::<ClientSide>(TimerKind::Wait, author),
        Telling::Ack => system.timer::<ClientSide>(TimerKind::Ack, author),
        Telling::Cancel => system.cancel(author),
        Telling::CancelTimer => system.timer::<ClientSide>(TimerKind::Cancel, author),
        Reply(length) => system.reply(length, author),
        Fault => system.fault(author),
        ServerTransmit => system.transmit::<ServerSide>(None, author),
        Telling::Resend => system.timer::<ServerSide>(Resend, author),
    }
}

/// One of the datagrams that were sent to a side. A story that names one which was not sent is
/// wrong, unless the events came to their end within it.
fn deliver<S: Joined>(
    place: usize,
    system: &mut System,
    author: &mut Author,
) -> Result<(), Broken> {
    match S::halves(system).0.line.sent(place) {
        Some(datagram) => system.arrive_of::<S>(&datagram, author),
        None if author.has_finished() => Ok(()),
        None => Err("a story delivers what was not sent".into()),
    }
}
