//! Calls of every function of a side, made to fit a record or to be anything.

use super::arguments;
use crate::bench::message::message;
use crate::coverage::side_names::Named;
use crate::door::invocation::Invocation;
use crate::door::step::Door;
use crate::generate::arriving::Arriving;
use crate::generate::author::Author;
use crate::generate::made::Made;
use crate::generate::parts::{any_call, message_length};
use crate::generate::random::Random;
use crate::generate::server::pdus;
use crate::machines::refusal::answer;
use crate::records::client::{Client, ClientEvent, ClientSide, Start};
use crate::records::outgoing::MESSAGE_LIMIT;
use crate::records::record::Record;
use crate::records::server::{Answer, Server, ServerSide};

/// The function that hands up a part.
pub const PART: &str = "part";

/// A side whose functions are called with any bytes as a record.
pub trait Callable: Made + Named {
    /// An event of the name that only this side has.
    fn own_event_named(name: &str, random: &mut Random) -> Option<Self::OwnEvent>;

    /// What `fresh` takes beside activity and tickets.
    fn any_fresh_argument(random: &mut Random) -> Self::FreshArgument;

    /// A function that only this side has, with arguments of which one is wrong.
    fn wrong_arguments(turn: usize, author: &mut Author<Self>);

    /// The names of what such arguments reach.
    fn wrong_argument_names() -> Vec<String>;

    /// A PDU that mostly fits the record.
    fn fitting_pdu(record: &Record<Self>, random: &mut Random) -> Arriving;
}

/// All functions that read a record, by name.
pub fn functions<S: Named>() -> Vec<&'static str> {
    let events = S::EVENTS.iter().copied();
    events.chain([PART]).collect()
}

/// What a call gives.
#[derive(Clone, Copy, Debug, PartialEq, Eq)]
pub enum Given {
    Answer(u8),
    PartLength(usize),
}

impl Given {
    /// Whether it can be what is given for a record that is not readable.
    pub fn is_of_unreadable(self) -> bool {
        matches!(self, Given::Answer(2) | Given::PartLength(0))
    }

    /// Whether it can be what is given for lent memory of another length.
    pub fn is_of_another_length(self) -> bool {
        matches!(self, Given::Answer(1) | Given::PartLength(0))
    }
}

/// Calls a function with arguments that fit the record, which the bytes on the bench need not be.
pub fn call_fitting<S: Callable>(
    function: &str,
    record: &Record<S>,
    author: &mut Author<S>,
) -> Option<Given> {
    let random = &mut author.random;
    match function {
        "transmit" => {
            let length = record.outgoing.length.min(MESSAGE_LIMIT as u32);
            let message = message(length as usize, random.u8());
            let invocation = Invocation::Transmit { message: &message };
            invoke(&invocation, author)
        }
        "arrive" => {
            let datagram = S::fitting_pdu(record, random).datagram();
            let invocation = Invocation::Arrive {
                datagram: &datagram,
            };
            invoke(&invocation, author)
        }
        "timer" => {
            let (kind, timer) = fitting_timer(record, random);
            let ticket = record.timer_of(timer).unwrap_or(record.tickets.counter);
            invoke(&Invocation::Timer { kind, ticket }, author)
        }
        PART => ask_part(0, author),
        name => {
            let event = S::own_event_named(name, random)?;
            let invocation = Invocation::Own(S::own_invocation(&event));
            invoke(&invocation, author)
        }
    }
}

/// A timer that is armed, if one is, with its number.
fn fitting_timer<S: Door>(record: &Record<S>, random: &mut Random) -> (u8, S::TimerKind) {
    let mut armed = S::TIMER_NUMBERS.to_vec();
    armed.retain(|timer| record.timer_of(timer.1).is_some());
    match armed[..] {
        [] => random.pick(S::TIMER_NUMBERS),
        _ => random.pick(&armed),
    }
}

/// Calls a function, unless there were enough events.
pub fn invoke<S: Made>(invocation: &Invocation<S>, author: &mut Author<S>) -> Option<Given> {
    let may = author.may_go_on();
    may.then(|| Given::Answer(answer(&author.bench.invoke(invocation))))
}

pub fn ask_part<S: Made>(number: u16, author: &mut Author<S>) -> Option<Given> {
    let may = author.may_go_on();
    may.then(|| Given::PartLength(author.bench.part::<S>(number)))
}

impl Callable for ClientSide {
    fn own_event_named(name: &str, random: &mut Random) -> Option<ClientEvent> {
        match name {
            "start" => Some(ClientEvent::Start(Start {
                call: any_call(random),
                length: message_length(random),
            })),
            "cancel" => Some(ClientEvent::Cancel),
            _ => None,
        }
    }

    fn any_fresh_argument(_: &mut Random) {}

    fn wrong_arguments(turn: usize, author: &mut Author<ClientSide>) {
        arguments::wrong_start(turn, author);
    }

    fn wrong_argument_names() -> Vec<String> {
        arguments::wrong_start_names()
    }

    fn fitting_pdu(client: &Client, random: &mut Random) -> Arriving {
        match random.between(0, 9) {
            0..=4 => Arriving::response(client, random),
            5 => Arriving::fack(client, random),
            6 => Arriving::other_type(client, random),
            7 => Arriving::cancel_ack(client, random),
            _ => Arriving::of_type(random.pick(&[3, 4, 5, 6]), client, random),
        }
    }
}

impl Callable for ServerSide {
    fn own_event_named(name: &str, random: &mut Random) -> Option<Answer> {
        match name {
            "reply" => Some(Answer::Reply {
                length: message_length(random),
            }),
            "fault" => Some(Answer::Fault {
                status: random.field_u32(),
            }),
            _ => None,
        }
    }

    fn any_fresh_argument(random: &mut Random) -> u32 {
        random.field_u32()
    }

    /// A length too long is the only one, and a status can be anything.
    fn wrong_arguments(_: usize, author: &mut Author<ServerSide>) {
        let length = author.random.pick(&[44_545, 65_536, u32::MAX]);
        let _ = invoke(&Invocation::Own(Answer::Reply { length }), author);
    }

    fn wrong_argument_names() -> Vec<String> {
        Vec::new()
    }

    fn fitting_pdu(server: &Server, random: &mut Random) -> Arriving {
        pdus::good(server, random)
    }
}
