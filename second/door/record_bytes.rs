//! A record as bytes: which bytes are readable as one, and which bytes stand for a record.

use super::layout;
use super::places::{put, Places, RecordBytes};
use crate::machines::machine::Machine;
use crate::records::call::Call;
use crate::records::client::{Client, ClientFields, ClientSide};
use crate::records::incoming::Incoming;
use crate::records::outgoing::Outgoing;
use crate::records::record::Record;
use crate::records::server::{Server, ServerFields, ServerSide, State};
use crate::records::timer::{Tickets, Timer};

/// A side whose record is kept as bytes.
pub trait Stored: Machine {
    /// The places that no field has.
    const SPARE: &'static [(usize, usize)];

    /// The fields that only this side has, and how often a message was sent again.
    fn decode_own(places: &Places, state: Self::State) -> Option<(Self::Own, u8)>;

    /// Puts the same fields into their places.
    fn encode_own(record: &Record<Self>, bytes: &mut RecordBytes);
}

/// The record that readable bytes stand for.
pub fn decode<S: Stored>(bytes: &RecordBytes) -> Option<Record<S>> {
    let places = Places(bytes);
    if !places.are_spare(S::SPARE) {
        return None;
    }
    let state = state_of::<S>(bytes)?;
    let (own, resends) = S::decode_own(&places, state)?;
    Some(Record {
        state,
        activity: places.array(layout::ACTIVITY),
        number: places.u32(layout::NUMBER),
        call: decode_call(&places)?,
        outgoing: decode_outgoing(&places)?,
        incoming: decode_incoming(&places)?,
        resends,
        tickets: Tickets {
            counter: places.u64(layout::TICKET_COUNTER),
        },
        own,
    })
}

/// The state that is listed under the number of the state byte.
pub fn state_of<S: Stored>(bytes: &RecordBytes) -> Option<S::State> {
    S::STATES.get(usize::from(bytes[layout::STATE])).copied()
}

fn decode_call(places: &Places) -> Option<Call> {
    Some(Call {
        idempotent: places.mark(layout::IDEMPOTENT)?,
        object: places.array(layout::OBJECT),
        interface: places.array(layout::INTERFACE),
        version: places.u32(layout::VERSION),
        operation: places.u16(layout::OPERATION),
    })
}

fn decode_outgoing(places: &Places) -> Option<Outgoing> {
    Some(Outgoing {
        length: places.u32(layout::MESSAGE_LENGTH),
        fragments: places.count(layout::FRAGMENTS)?,
        sent: places.count(layout::SENT)?,
        acknowledged: places.count(layout::ACKNOWLEDGED)?,
        serial: places.u16(layout::SERIAL),
    })
}

fn decode_incoming(places: &Places) -> Option<Incoming> {
    let mut incoming = Incoming::empty();
    if places.u16(layout::KNOWN_LAST) != layout::UNKNOWN_LAST {
        incoming.last = Some(places.count(layout::KNOWN_LAST)?);
    }
    for (number, slot) in incoming.slots.iter_mut().enumerate() {
        let at = layout::SLOTS + layout::SLOT_LENGTH * number;
        let is_held = places.mark(at + layout::SLOT_HELD)?;
        if places.u8(at + layout::SLOT_SPARE) != 0 {
            return None;
        }
        *slot = is_held.then(|| places.u16(at));
    }
    Some(incoming)
}

/// The ticket of a timer that is armed; of another one it means nothing.
fn decode_timer(places: &Places, armed: usize, ticket: usize) -> Option<Timer> {
    let is_armed = places.mark(armed)?;
    Some(is_armed.then(|| places.u64(ticket)))
}

/// The bytes of a record in canonical form: what means nothing is 0.
pub fn encode<S: Stored>(record: &Record<S>) -> RecordBytes {
    let mut bytes = [0; layout::RECORD_LENGTH];
    let state = S::STATES.iter().position(|state| *state == record.state);
    bytes[layout::STATE] = state.unwrap_or(S::STATES.len()) as u8;
    put(&mut bytes, layout::ACTIVITY, &record.activity);
    put(&mut bytes, layout::NUMBER, &record.number.to_le_bytes());
    let counter = record.tickets.counter.to_le_bytes();
    put(&mut bytes, layout::TICKET_COUNTER, &counter);
    encode_call(&record.call, &mut bytes);
    encode_outgoing(&record.outgoing, &mut bytes);
    encode_incoming(&record.incoming, &mut bytes);
    S::encode_own(record, &mut bytes);
    bytes
}

fn encode_call(call: &Call, bytes: &mut RecordBytes) {
    bytes[layout::IDEMPOTENT] = u8::from(call.idempotent);
    put(bytes, layout::OBJECT, &call.object);
    put(bytes, layout::INTERFACE, &call.interface);
    put(bytes, layout::VERSION, &call.version.to_le_bytes());
    put(bytes, layout::OPERATION, &call.operation.to_le_bytes());
}

fn encode_outgoing(outgoing: &Outgoing, bytes: &mut RecordBytes) {
    let mut put_u16 = |at, number: u16| put(bytes, at, &number.to_le_bytes());
    put_u16(layout::FRAGMENTS, u16::from(outgoing.fragments));
    put_u16(layout::SENT, u16::from(outgoing.sent));
    put_u16(layout::ACKNOWLEDGED, u16::from(outgoing.acknowledged));
    put_u16(layout::SERIAL, outgoing.serial);
    let length = outgoing.length.to_le_bytes();
    put(bytes, layout::MESSAGE_LENGTH, &length);
}

fn encode_incoming(incoming: &Incoming, bytes: &mut RecordBytes) {
    let last = incoming.last.map_or(layout::UNKNOWN_LAST, u16::from);
    put(bytes, layout::KNOWN_LAST, &last.to_le_bytes());
    for (number, length) in incoming.held_fragments() {
        let at = layout::SLOTS + layout::SLOT_LENGTH * usize::from(number);
        put(bytes, at, &length.to_le_bytes());
        bytes[at + layout::SLOT_HELD] = 1;
    }
}

fn encode_timer(timer: Timer, armed: usize, ticket: usize, bytes: &mut RecordBytes) {
    if let Some(number) = timer {
        bytes[armed] = 1;
        put(bytes, ticket, &number.to_le_bytes());
    }
}

impl Stored for ClientSide {
    const SPARE: &'static [(usize, usize)] = &layout::CLIENT_SPARE;

    fn decode_own(places: &Places, _: Self::State) -> Option<(ClientFields, u8)> {
        let own = ClientFields {
            waits: places.u8(layout::FIRST_COUNT),
            wait: decode_timer(places, layout::FIRST_ARMED, layout::FIRST_TICKET)?,
            ack: decode_timer(places, layout::SECOND_ARMED, layout::SECOND_TICKET)?,
            cancel: decode_timer(places, layout::THIRD_ARMED, layout::THIRD_TICKET)?,
            cancel_number: places.u32(layout::CANCEL_NUMBER),
        };
        Some((own, places.u8(layout::SECOND_COUNT)))
    }

    fn encode_own(client: &Client, bytes: &mut RecordBytes) {
        let own = &client.own;
        bytes[layout::FIRST_COUNT] = own.waits;
        bytes[layout::SECOND_COUNT] = client.resends;
        encode_timer(own.wait, layout::FIRST_ARMED, layout::FIRST_TICKET, bytes);
        encode_timer(own.ack, layout::SECOND_ARMED, layout::SECOND_TICKET, bytes);
        encode_timer(own.cancel, layout::THIRD_ARMED, layout::THIRD_TICKET, bytes);
        let number = own.cancel_number.to_le_bytes();
        put(bytes, layout::CANCEL_NUMBER, &number);
    }
}

impl Stored for ServerSide {
    const SPARE: &'static [(usize, usize)] = &layout::SERVER_SPARE;

    fn decode_own(places: &Places, state: State) -> Option<(ServerFields, u8)> {
        let status = match state {
            State::HeldFault => places.u32(layout::STATUS),
            _ => 0,
        };
        let own = ServerFields {
            status,
            boot: places.u32(layout::BOOT),
            resend: decode_timer(places, layout::FIRST_ARMED, layout::FIRST_TICKET)?,
            cancel_number: places.u32(layout::CANCEL_NUMBER),
        };
        Some((own, places.u8(layout::FIRST_COUNT)))
    }

    fn encode_own(server: &Server, bytes: &mut RecordBytes) {
        let own = &server.own;
        bytes[layout::FIRST_COUNT] = server.resends;
        put(bytes, layout::BOOT, &own.boot.to_le_bytes());
        encode_timer(own.resend, layout::FIRST_ARMED, layout::FIRST_TICKET, bytes);
        let number = own.cancel_number.to_le_bytes();
        put(bytes, layout::CANCEL_NUMBER, &number);
        if server.state == State::HeldFault {
            put(bytes, layout::STATUS, &own.status.to_le_bytes());
        }
    }
}
