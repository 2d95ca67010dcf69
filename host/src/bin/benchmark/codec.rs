//! The cases of the reader and the writer alone, and of no event at all. The record of these is not used.

use crate::case::{Case, Expected, DONE};
use crate::event::Event;
use crate::machine::{changed, requests, unreadable};
use crate::side::CLIENT;
use morphelai::{PduType, FRAGMENT_SIZE, HEADER_SIZE, RECORD_SIZE};

/// The name of the case without an event.
pub const EMPTY: &str = "empty";

/// What it costs to repeat an event: a copy of the record, and nothing done.
pub fn empty() -> Case {
    case(EMPTY, Event::Nothing, DONE)
}

pub fn cases() -> Vec<Case> {
    reads().into_iter().chain(writes()).collect()
}

fn case(name: &str, event: Event, expected: Expected) -> Case {
    Case { name: name.to_owned(), expected, side: &CLIENT, record: vec![0; RECORD_SIZE], event }
}

fn refused(name: &str, event: Event, answer: u8) -> Case {
    case(&format!("{name}-refused-{answer}"), event, Expected::refused(answer))
}

fn reads() -> Vec<Case> {
    let request = &requests(1)[0];
    let mut big_endian = changed(request, 4, 0);
    big_endian[74..76].reverse();
    let short_header = Event::Read { datagram: request.clone(), header_length: HEADER_SIZE - 1 };
    let mut cases = vec![
        case("read", Event::read(request), DONE),
        case("read-whole", Event::read(&requests(FRAGMENT_SIZE)[0]), DONE),
        case("read-big-endian", Event::read(&big_endian), DONE),
        refused("read", short_header, 1),
    ];
    for (datagram, answer) in unreadable(request) {
        cases.push(refused("read", Event::read(&datagram), answer));
    }
    cases
}

fn writes() -> Vec<Case> {
    let header = requests(0)[0].clone();
    let write = |header: &[u8], body_length| Event::Write { header: header.to_vec(), body_length };
    let sending = DONE.sending(PduType::Request);
    vec![
        case("write-empty", write(&header, 0), sending),
        case("write-whole", write(&header, FRAGMENT_SIZE), sending),
        refused("write", write(&header[..HEADER_SIZE - 1], 1), 1),
        refused("write", write(&changed(&header, 1, 11), 1), 5),
        refused("write", write(&changed(&header, 78, 1), 1), 7),
        refused("write", write(&header, FRAGMENT_SIZE + 1), 8),
    ]
}
