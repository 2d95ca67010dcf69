//! Scenes on records that no machine leaves: each function meets their bytes.

use super::arguments::{fresh_record, other_timer};
use super::calls::{ask_part, call_fitting, functions, invoke, Callable, Given};
use super::meaningless::Meaningless;
use super::records::{any_bytes, change_some, ways, Way};
use crate::bench::bench::Bench;
use crate::bench::memory::RIGHT;
use crate::bench::message::message;
use crate::door::invocation::Invocation;
use crate::door::layout;
use crate::door::places::put;
use crate::door::record_bytes::encode;
use crate::generate::author::Author;
use crate::generate::parts::{message_length, whole_of};
use crate::generate::scenes::{play_scenes, Scene};
use crate::records::outgoing::MESSAGE_LIMIT;
use crate::records::record::Record;

/// The lengths of a record that are not its own.
pub const RECORD_LENGTHS: [usize; 6] = [0, 1, 144, 271, 273, 288];

/// Numbers of parts that no fragment has.
pub const NUMBERS_BEYOND: [u16; 9] = [32, 33, 63, 255, 256, 257, 287, 32_768, 65_535];

/// So many events of scenes.
pub fn play<S: Callable>(bench: Bench, seed: u64, events: u64) -> Bench {
    let round: [(Scene<S>, usize); 11] = [
        (unreadable_record, 10),
        (changed_record, 12),
        (random_record, 6),
        (meaningless_place, 4),
        (other_record_length, 1),
        (unreadable_and_lent_wrong, 1),
        (unreadable_transmit, 2),
        (parts, 1),
        (other_timer, 2),
        (fresh_record, 1),
        (S::wrong_arguments, 2),
    ];
    play_scenes(&round, bench, seed, events)
}

/// A sound record of each state by turns, with something that is handed up.
fn record_with_a_part<S: Callable>(turn: usize, author: &mut Author<S>) -> Record<S> {
    let state = S::STATES[turn % S::STATES.len()];
    let mut record = S::sound_record(state, &mut author.random);
    record.incoming.slots[0] = Some(4);
    record
}

/// Every function meets bytes that are not readable in one way.
fn unreadable_record<S: Callable>(turn: usize, author: &mut Author<S>) {
    let ways = ways::<S>();
    let way = ways[turn % ways.len()];
    let record = record_with_a_part(turn / ways.len() + turn, author);
    let mut bytes = encode(&record);
    way.spoil::<S>(&mut bytes, &mut author.random);
    author.bench.set_bytes::<S>(&bytes);
    for function in functions::<S>() {
        let given = call_fitting(function, &record, author);
        if given.is_some_and(Given::is_of_unreadable) {
            let side = S::WORDS.side;
            let name = format_args!("{side} unreadable at {function}: {way}");
            author.bench.coverage.counts.add(name);
        }
    }
}

/// Every function meets a sound record of which some bytes are changed.
fn changed_record<S: Callable>(turn: usize, author: &mut Author<S>) {
    let record = record_with_a_part(turn, author);
    for function in functions::<S>() {
        let mut bytes = encode(&record);
        change_some(&mut bytes, &mut author.random);
        author.bench.set_bytes::<S>(&bytes);
        call_any(function, &record, author);
    }
}

/// Every function meets bytes that are anything.
fn random_record<S: Callable>(turn: usize, author: &mut Author<S>) {
    let record = record_with_a_part(turn, author);
    let bytes = any_bytes::<S>(&mut author.random);
    author.bench.set_bytes::<S>(&bytes);
    for function in functions::<S>() {
        call_any(function, &record, author);
    }
}

/// A call that fits the record, or one with arguments that are anything.
fn call_any<S: Callable>(function: &str, record: &Record<S>, author: &mut Author<S>) {
    let random = &mut author.random;
    let length = random.pick(&[0, 1, 40, 79, 80, 81, 96, 200, 1_472, 1_473]);
    let is_any = random.percent(25);
    // What is given is compared; nothing here goes on from it.
    let _ = match function {
        "arrive" if is_any => {
            let mut datagram = random.bytes(length);
            if random.percent(70) {
                let good = S::fitting_pdu(record, random).datagram();
                let kept = random.between(0, good.len().min(length));
                datagram[..kept].copy_from_slice(&good[..kept]);
            }
            let invocation = Invocation::Arrive {
                datagram: &datagram,
            };
            invoke(&invocation, author)
        }
        "timer" if is_any => {
            let (kind, ticket) = (random.u8() % 6, random.u64());
            invoke(&Invocation::Timer { kind, ticket }, author)
        }
        "part" if is_any => {
            let number = random.between(0, 40) as u16;
            ask_part(number, author)
        }
        _ => call_fitting(function, record, author),
    };
}

/// What means nothing may be anything, and is written 0 by the next event that is done.
fn meaningless_place<S: Callable>(turn: usize, author: &mut Author<S>) {
    let mut record = record_with_a_part(turn, author);
    record.incoming = whole_of(author.random.between(1, 2) as u8, &mut author.random);
    let mut bytes = encode(&record);
    let places = <S as Meaningless>::places(&bytes);
    let (at, length) = places[turn / S::STATES.len() % places.len()];
    let noise = author.random.u64() | 1;
    put(&mut bytes, at, &noise.to_le_bytes()[..length]);
    author.bench.set_bytes::<S>(&bytes);
    for function in functions::<S>() {
        let given = call_fitting(function, &record, author);
        if given == Some(Given::Answer(0)) {
            let side = S::WORDS.side;
            let name = format_args!("{side} meaningless and written 0: {length} bytes at {at}");
            author.bench.coverage.counts.add(name);
            return;
        }
    }
}

/// Every function is lent a record of another length.
fn other_record_length<S: Callable>(turn: usize, author: &mut Author<S>) {
    let length = RECORD_LENGTHS[turn % RECORD_LENGTHS.len()];
    let record = record_with_a_part(turn / RECORD_LENGTHS.len(), author);
    author.bench.set_bytes::<S>(&encode(&record));
    author.bench.lent.record = length;
    for function in functions::<S>() {
        let given = call_fitting(function, &record, author);
        if given.is_some_and(Given::is_of_another_length) {
            let side = S::WORDS.side;
            let name = format_args!("{side} record of {length} bytes at {function}");
            author.bench.coverage.counts.add(name);
        }
    }
    let activity = author.random.uuid();
    let invocation = Invocation::Fresh {
        activity: &activity,
        argument: S::any_fresh_argument(&mut author.random),
        tickets: 7,
    };
    let given = invoke::<S>(&invocation, author);
    if given.is_some_and(Given::is_of_another_length) {
        let name = format_args!("{} record of {length} bytes at fresh", S::WORDS.side);
        author.bench.coverage.counts.add(name);
    }
    author.bench.lent = RIGHT;
}

/// A PDU buffer of another length comes before bytes that are not readable, where one is lent.
fn unreadable_and_lent_wrong<S: Callable>(turn: usize, author: &mut Author<S>) {
    let ways = ways::<S>();
    let record = record_with_a_part(turn, author);
    let mut bytes = encode(&record);
    let way = author.random.pick(&ways);
    way.spoil::<S>(&mut bytes, &mut author.random);
    author.bench.set_bytes::<S>(&bytes);
    author.lend_wrong_pdu();
    for function in functions::<S>() {
        let given = call_fitting(function, &record, author);
        if let Some(Given::Answer(answer)) = given {
            let side = S::WORDS.side;
            let name = format_args!("{side} unreadable and lent wrong at {function}: {answer}");
            author.bench.coverage.counts.add(name);
        }
    }
    author.bench.lent = RIGHT;
}

/// The state byte alone says which message may be lent, whether the bytes are readable or not.
fn unreadable_transmit<S: Callable>(turn: usize, author: &mut Author<S>) {
    let states = [Some(S::SENDING), None, Some(S::FRESH)];
    let state = states[turn % states.len()];
    let random = &mut author.random;
    let record = S::sound_record(state.unwrap_or(S::SENDING), random);
    let right = match state {
        Some(state) if state == S::SENDING => record.outgoing.length,
        _ => message_length(random),
    };
    let lent = [right, right ^ 1, MESSAGE_LIMIT as u32 + 1][turn / states.len() % 3];
    let mut bytes = encode(&record);
    let spoiled = match state {
        None => Way::State,
        Some(_) => Way::Spare(layout::SLOTS + layout::SLOT_SPARE),
    };
    spoiled.spoil::<S>(&mut bytes, random);
    author.bench.set_bytes::<S>(&bytes);
    let message = message(lent.min(65_536) as usize, 1);
    let given = invoke::<S>(&Invocation::Transmit { message: &message }, author);
    if let Some(Given::Answer(answer)) = given {
        let what = match state {
            Some(state) if state == S::SENDING => "a message is being sent",
            Some(_) => "no message is being sent",
            None => "the state is not listed",
        };
        let side = S::WORDS.side;
        let name = format_args!("{side} unreadable transmit where {what}: {answer}");
        author.bench.coverage.counts.add(name);
    }
}

/// All parts of a message, and numbers that no part has.
fn parts<S: Callable>(turn: usize, author: &mut Author<S>) {
    let mut record = record_with_a_part(turn, author);
    let count = [32, 1, 31, 2, 16][turn % 5];
    record.incoming = whole_of(count, &mut author.random);
    author.bench.set_bytes::<S>(&encode(&record));
    for number in (0..32).chain(NUMBERS_BEYOND) {
        let given = ask_part(number, author);
        let is_part = given.is_some_and(|given| given != Given::PartLength(0));
        if is_part || given.is_some() && number >= 32 {
            let name = format_args!("{} part {number}", S::WORDS.side);
            author.bench.coverage.counts.add(name);
        }
    }
}
