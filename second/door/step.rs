//! The events of a side on a record that is lent as bytes.

use super::invocation::{ClientInvocation, Invocation, Invoked, Lent, StartArguments};
use super::layout;
use super::places::{Places, RecordBytes};
use super::record_bytes::{decode, encode, state_of, Stored};
use crate::codec::pdu::{Uuid, PDU_LIMIT};
use crate::machines::effect::Effect;
use crate::machines::event::Event;
use crate::machines::refusal::Refusal;
use crate::records::call::Call;
use crate::records::client::{Client, ClientEvent, ClientSide, Start, TimerKind};
use crate::records::incoming::SLOT_BUFFER_LENGTH;
use crate::records::outgoing::MESSAGE_LIMIT;
use crate::records::record::Record;
use crate::records::server::{Answer, Resend, Server, ServerSide};

/// What the door of one side does otherwise than that of the other.
pub trait Door: Stored + Invoked {
    /// The timers by their numbers.
    const TIMER_NUMBERS: &'static [(u8, Self::TimerKind)];

    fn fresh(activity: Uuid, argument: Self::FreshArgument, tickets: u64) -> Record<Self>;

    /// The event of a function that only this side has; none where an argument is wrong.
    fn own_event(own: &Self::OwnInvocation<'_>) -> Option<Self::OwnEvent>;

    /// The function of an event that only this side has.
    fn own_invocation(event: &Self::OwnEvent) -> Self::OwnInvocation<'_>;

    /// Whether an argument or what is lent is wrong for the function.
    fn own_is_lent_wrong(own: &Self::OwnInvocation<'_>, pdu_length: usize) -> bool;
}

/// What a function does to the memory lent.
pub fn invoke<S: Door>(invocation: &Invocation<S>, lent: Lent) -> Result<Effect, Refusal> {
    let Ok(bytes) = <&mut RecordBytes>::try_from(lent.record) else {
        return Err(Refusal::LentBuffer);
    };
    if is_lent_wrong(invocation, bytes, lent.slots.len(), lent.pdu.len()) {
        return Err(Refusal::LentBuffer);
    }
    if let Some(fresh) = fresh_of(invocation) {
        *bytes = encode(&fresh);
        return Ok(Effect::nothing());
    }
    let mut record = decode::<S>(bytes).ok_or(Refusal::BrokenRecord)?;
    let event = match event_of(invocation) {
        Some(event) => event,
        None => return refuse_without_a_row(&record),
    };
    let effect = record.take(&event, lent.slots, lent.pdu)?;
    *bytes = encode(&record);
    Ok(effect)
}

/// The length of the part of the slots that a fragment lies in, 0 where nothing is handed up.
pub fn part<S: Door>(number: u16, record: &[u8], slots: &[u8]) -> u64 {
    let bytes = <&RecordBytes>::try_from(record).ok();
    let record = bytes.and_then(decode::<S>);
    let number = u8::try_from(number).ok();
    match (record, number) {
        (Some(record), Some(number)) => record.hand_up(number, slots).len() as u64,
        _ => 0,
    }
}

/// The function of an event.
pub fn invocation_of<'a, S: Door>(event: &'a Event<'a, S>) -> Invocation<'a, S> {
    match event {
        Event::Transmit { message } => Invocation::Transmit { message },
        Event::Arrive { datagram } => Invocation::Arrive { datagram },
        Event::Timer { kind, ticket } => Invocation::Timer {
            kind: number_of_timer::<S>(*kind),
            ticket: *ticket,
        },
        Event::Own(event) => Invocation::Own(S::own_invocation(event)),
    }
}

fn number_of_timer<S: Door>(kind: S::TimerKind) -> u8 {
    let mut timers = S::TIMER_NUMBERS.iter();
    timers
        .find(|timer| timer.1 == kind)
        .map_or(0, |timer| timer.0)
}

/// The event of a function; none for a timer of another kind.
fn event_of<'a, S: Door>(invocation: &Invocation<'a, S>) -> Option<Event<'a, S>> {
    match invocation {
        Invocation::Transmit { message } => Some(Event::Transmit { message }),
        Invocation::Arrive { datagram } => Some(Event::Arrive { datagram }),
        Invocation::Timer { kind, ticket } => {
            let mut timers = S::TIMER_NUMBERS.iter();
            let (_, timer) = timers.find(|timer| timer.0 == *kind)?;
            Some(Event::Timer {
                kind: *timer,
                ticket: *ticket,
            })
        }
        Invocation::Own(own) => S::own_event(own).map(Event::Own),
        Invocation::Fresh { .. } => None,
    }
}

/// An event that no record has a row for: only a broken record is refused otherwise.
fn refuse_without_a_row<S: Door>(record: &Record<S>) -> Result<Effect, Refusal> {
    record.grounds(false, false).decide()?;
    Err(Refusal::NoRow)
}

fn fresh_of<S: Door>(invocation: &Invocation<S>) -> Option<Record<S>> {
    match invocation {
        Invocation::Fresh {
            activity,
            argument,
            tickets,
        } => {
            let activity = Uuid::try_from(*activity).ok()?;
            Some(S::fresh(activity, *argument, *tickets))
        }
        _ => None,
    }
}

/// What is judged before the record is read.
fn is_lent_wrong<S: Door>(
    invocation: &Invocation<S>,
    bytes: &RecordBytes,
    slots_length: usize,
    pdu_length: usize,
) -> bool {
    let is_wrong_pdu = pdu_length != PDU_LIMIT;
    match invocation {
        Invocation::Fresh { activity, .. } => Uuid::try_from(*activity).is_err(),
        Invocation::Transmit { message } => is_wrong_pdu || is_wrong_message::<S>(message, bytes),
        Invocation::Arrive { .. } => is_wrong_pdu || slots_length != SLOT_BUFFER_LENGTH,
        Invocation::Timer { .. } => is_wrong_pdu,
        Invocation::Own(own) => S::own_is_lent_wrong(own, pdu_length),
    }
}

/// While a message is being sent only that one may be lent. The state byte tells whether one is.
fn is_wrong_message<S: Door>(message: &[u8], bytes: &RecordBytes) -> bool {
    let is_being_sent = state_of::<S>(bytes) == Some(S::SENDING);
    let length = Places(bytes).u32(layout::MESSAGE_LENGTH) as usize;
    message.len() > MESSAGE_LIMIT || is_being_sent && message.len() != length
}

/// The start that the arguments are those of; none where one is wrong.
fn start_of(arguments: &StartArguments) -> Option<Start> {
    let idempotent = match arguments.idempotent {
        0 => false,
        1 => true,
        _ => return None,
    };
    let call = Call {
        idempotent,
        object: arguments.object.try_into().ok()?,
        interface: arguments.interface.try_into().ok()?,
        version: arguments.version,
        operation: arguments.operation,
    };
    let length = arguments.length;
    Some(Start { call, length })
}

impl Door for ClientSide {
    const TIMER_NUMBERS: &'static [(u8, TimerKind)] = &[
        (1, TimerKind::Wait),
        (2, TimerKind::Ack),
        (4, TimerKind::Cancel),
    ];

    fn fresh(activity: Uuid, _: (), tickets: u64) -> Client {
        Client::fresh(activity, tickets)
    }

    fn own_event(own: &ClientInvocation) -> Option<ClientEvent> {
        match own {
            ClientInvocation::Start(arguments) => start_of(arguments).map(ClientEvent::Start),
            ClientInvocation::Cancel => Some(ClientEvent::Cancel),
        }
    }

    fn own_invocation(event: &ClientEvent) -> ClientInvocation<'_> {
        match event {
            ClientEvent::Start(start) => ClientInvocation::Start(StartArguments::of(start)),
            ClientEvent::Cancel => ClientInvocation::Cancel,
        }
    }

    fn own_is_lent_wrong(own: &ClientInvocation, pdu_length: usize) -> bool {
        match own {
            ClientInvocation::Start(arguments) => {
                start_of(arguments).is_none() || arguments.length as usize > MESSAGE_LIMIT
            }
            ClientInvocation::Cancel => pdu_length != PDU_LIMIT,
        }
    }
}

impl Door for ServerSide {
    const TIMER_NUMBERS: &'static [(u8, Resend)] = &[(3, Resend)];

    fn fresh(activity: Uuid, boot: u32, tickets: u64) -> Server {
        Server::fresh(activity, boot, tickets)
    }

    fn own_event(answer: &Answer) -> Option<Answer> {
        Some(answer.clone())
    }

    fn own_invocation(answer: &Answer) -> Answer {
        answer.clone()
    }

    fn own_is_lent_wrong(answer: &Answer, pdu_length: usize) -> bool {
        match answer {
            Answer::Reply { length } => *length as usize > MESSAGE_LIMIT,
            Answer::Fault { .. } => pdu_length != PDU_LIMIT,
        }
    }
}
