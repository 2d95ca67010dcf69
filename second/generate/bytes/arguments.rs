//! Arguments that an event cannot have: UUIDs of another length, marks above 1, other timers.

use super::calls::{invoke, Callable, Given};
use super::records::Way;
use crate::bench::memory::RIGHT;
use crate::codec::pdu::Uuid;
use crate::door::invocation::{ClientInvocation, Invocation, StartArguments};
use crate::door::layout;
use crate::door::record_bytes::encode;
use crate::generate::author::Author;
use crate::generate::client;
use crate::generate::made::Made;
use crate::generate::parts::{any_call, message_length};
use crate::generate::random::Random;
use crate::records::client::{Client, ClientSide, State, STATES};

/// Lengths of a UUID that are not its own.
const UUID_LENGTHS: [usize; 6] = [0, 1, 15, 17, 32, 272];

/// The highest number that a timer has at either side.
const HIGHEST_TIMER: u8 = 4;

/// The names of timers that only the other side has, or neither, as they are counted.
pub fn other_timer_names<S: Callable>() -> Vec<String> {
    let side = S::WORDS.side;
    let own: Vec<u8> = S::TIMER_NUMBERS.iter().map(|timer| timer.0).collect();
    let mut names = Vec::new();
    for answer in [1, 2, 15] {
        names.push(format!("{side} timer of another kind: {answer}"));
        let others = (0..=HIGHEST_TIMER).filter(|kind| !own.contains(kind));
        names.extend(others.map(|kind| format!("{side} timer of kind {kind}: {answer}")));
    }
    names
}

/// A UUID of another length.
fn wrong_uuid(turn: usize, random: &mut Random) -> Vec<u8> {
    random.bytes(UUID_LENGTHS[turn % UUID_LENGTHS.len()])
}

/// A timer of a kind that the side does not have: 1 and 2 come first, then 15.
pub fn other_timer<S: Callable>(turn: usize, author: &mut Author<S>) {
    let random = &mut author.random;
    let record = S::sound_record(S::STATES[turn % S::STATES.len()], random);
    let mut bytes = encode(&record);
    let case = turn / S::STATES.len() % 4;
    if case == 1 {
        Way::Spare(layout::SLOTS + layout::SLOT_SPARE).spoil::<S>(&mut bytes, random);
    } else if case == 2 {
        let mut broken = record.clone();
        broken.break_any_rule(random);
        bytes = encode(&broken);
    }
    let own = S::TIMER_NUMBERS.iter().map(|timer| timer.0);
    let others: Vec<u8> = (0..=255)
        .filter(|kind| !own.clone().any(|own| own == *kind))
        .collect();
    let any = random.pick(&others);
    let kind = random.pick(&[0, others[1], others[2], others[3], any, 255]);
    let mut armed = S::TIMERS.iter().filter_map(|kind| record.timer_of(*kind));
    let right = armed.next().unwrap_or(record.tickets.counter);
    let ticket = random.pick(&[right, right, 0, u64::MAX]);
    author.bench.set_bytes::<S>(&bytes);
    if case == 3 {
        author.lend_wrong_pdu();
    }
    if let Some(Given::Answer(answer)) = invoke::<S>(&Invocation::Timer { kind, ticket }, author) {
        let side = S::WORDS.side;
        let counts = &mut author.bench.coverage.counts;
        counts.add(format_args!("{side} timer of another kind: {answer}"));
        if kind <= HIGHEST_TIMER {
            counts.add(format_args!("{side} timer of kind {kind}: {answer}"));
        }
    }
    author.bench.lent = RIGHT;
}

/// A fresh record in the place of any other; every second activity has another length.
pub fn fresh_record<S: Callable>(turn: usize, author: &mut Author<S>) {
    let random = &mut author.random;
    let bytes = super::records::any_bytes::<S>(random);
    let activity: Uuid = random.uuid();
    let wrong = wrong_uuid(turn / 2, random);
    let tickets = random.pick(&[0, 1, u64::MAX, 1 << 40]);
    let argument = S::any_fresh_argument(random);
    author.bench.set_bytes::<S>(&bytes);
    match turn % 2 {
        0 => author.fresh_of::<S>(&activity, argument, tickets),
        _ => author.fresh_of::<S>(&wrong, argument, tickets),
    }
}

/// What is wrong with a start, beside what its record says.
const WRONG_STARTS: [&str; 4] = ["nothing", "the mark", "the object", "the interface"];

/// The names of what is wrong, as they are counted.
pub fn wrong_start_names() -> Vec<String> {
    let wrong = WRONG_STARTS[1..].iter().map(|what| (what, 1));
    // Without anything wrong there is the record, which may not be readable.
    let right = [0, 2].map(|answer| (&WRONG_STARTS[0], answer));
    right
        .into_iter()
        .chain(wrong)
        .map(|(what, answer)| format!("client start with {what} wrong: {answer}"))
        .collect()
}

/// A record that can take a start, by turns.
fn record_to_start(turn: usize, random: &mut Random) -> Client {
    let states = STATES.map(|state| {
        if state.may_start() {
            state
        } else {
            State::Queued
        }
    });
    let mut record = ClientSide::sound_record(states[turn % states.len()], random);
    record.number = 7;
    record
}

/// A start whose mark or one of whose UUIDs no call has.
pub fn wrong_start(turn: usize, author: &mut client::author::Author) {
    let random = &mut author.random;
    let record = record_to_start(turn / 4, random);
    let call = any_call(random);
    let wrong = wrong_uuid(turn, random);
    let mark = random.between(2, 255) as u8;
    let case = turn % 4;
    let arguments = StartArguments {
        idempotent: if case == 1 {
            mark
        } else {
            u8::from(call.idempotent)
        },
        object: if case == 2 { &wrong } else { &call.object },
        interface: if case == 3 { &wrong } else { &call.interface },
        version: call.version,
        operation: call.operation,
        length: message_length(random),
    };
    let mut bytes = encode(&record);
    if turn.is_multiple_of(3) {
        // What is wrong with the arguments comes before that.
        Way::State.spoil::<ClientSide>(&mut bytes, random);
    }
    author.bench.set_bytes::<ClientSide>(&bytes);
    let start = Invocation::Own(ClientInvocation::Start(arguments));
    if let Some(Given::Answer(answer)) = invoke(&start, author) {
        let what = WRONG_STARTS[case];
        let name = format_args!("client start with {what} wrong: {answer}");
        author.bench.coverage.counts.add(name);
    }
}
