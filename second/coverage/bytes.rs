//! What can be reached with bytes that no machine leaves as a record, by name.

use crate::coverage::counts::Group;
use crate::door::layout;
use crate::generate::bytes::arguments::other_timer_names;
use crate::generate::bytes::calls::{functions, Callable};
use crate::generate::bytes::records::ways;
use crate::generate::bytes::scenes::{NUMBERS_BEYOND, RECORD_LENGTHS};

/// Every way in which bytes are not readable, at every function.
fn unreadable_names<S: Callable>() -> Vec<String> {
    let side = S::WORDS.side;
    let mut names = Vec::new();
    for way in ways::<S>() {
        let functions = functions::<S>().into_iter();
        names.extend(functions.map(|function| format!("{side} unreadable at {function}: {way}")));
    }
    names
}

/// Every place that means nothing in some record.
fn meaningless_names<S: Callable>() -> Vec<String> {
    let slots = (0..32).map(|number| (layout::SLOTS + layout::SLOT_LENGTH * number, 2));
    // The first slot is held in all records that are made for this.
    let mut places: Vec<(usize, usize)> = slots.skip(1).collect();
    places.extend(S::TIMER_PLACES.iter().map(|timer| (timer.1, 8)));
    places.extend(S::STATUS_PLACE);
    let told = places.iter().map(|(at, length)| {
        let side = S::WORDS.side;
        format!("{side} meaningless and written 0: {length} bytes at {at}")
    });
    told.collect()
}

/// Lengths, numbers and arguments that no event has.
fn argument_names<S: Callable>() -> Vec<String> {
    let side = S::WORDS.side;
    let mut names = Vec::new();
    for length in RECORD_LENGTHS {
        let functions = functions::<S>().into_iter().chain(["fresh"]);
        names.extend(
            functions.map(|function| format!("{side} record of {length} bytes at {function}")),
        );
    }
    for what in [
        "a message is being sent",
        "no message is being sent",
        "the state is not listed",
    ] {
        let answers =
            [1, 2].map(|answer| format!("{side} unreadable transmit where {what}: {answer}"));
        names.extend(answers);
    }
    for function in S::EVENTS {
        // The others are lent no PDU buffer.
        let answer = if matches!(*function, "start" | "reply") {
            2
        } else {
            1
        };
        names.push(format!(
            "{side} unreadable and lent wrong at {function}: {answer}"
        ));
    }
    let numbers = (0..32).chain(NUMBERS_BEYOND);
    names.extend(numbers.map(|number| format!("{side} part {number}")));
    names.extend(other_timer_names::<S>());
    names.extend([0, 1].map(|answer| format!("{side}-fresh-answer-{answer}")));
    names
}

/// All names of a side.
pub fn groups<S: Callable>() -> Vec<Group> {
    let mut arguments = argument_names::<S>();
    arguments.extend(S::wrong_argument_names());
    let parts = [
        ("unreadable bytes at each function", unreadable_names::<S>()),
        ("meaningless bytes", meaningless_names::<S>()),
        ("lengths, numbers and arguments", arguments),
    ];
    let told = parts.map(|(what, names)| (format!("{} {what}", S::WORDS.side), names));
    told.into()
}
