//! Whole calls of a client, event by event from a fresh record.

use crate::codec::pdu::pdu_type;
use crate::generate::arriving::{bits_of, Arriving};
use crate::generate::client::author::Author;
use crate::generate::client::events::any_event;
use crate::records::client::{State, TimerKind};
use crate::records::timer::RETRY_LIMIT;

/// How a call goes.
#[derive(Clone, Copy)]
enum Kind {
    /// A request of so many bytes, a reply of so many fragments.
    Answered {
        length: u32,
        reply: u16,
    },
    /// Pings to the limit, after so many fragments of a reply.
    Unanswered {
        reply: u16,
    },
    /// Nocalls to the limit; so many fragments are acknowledged each time.
    Unknown {
        length: u32,
        acknowledged: u16,
    },
    /// The reply comes before all of the request is sent.
    Early {
        length: u32,
    },
    Failed {
        pdu_type: u8,
    },
    /// So many cancels, of which none is acknowledged in time.
    Cancelled {
        cancels: u32,
    },
    /// The same, and the last one is.
    Heard {
        cancels: u32,
    },
}

const CALLS: [Kind; 19] = [
    Kind::Answered {
        length: 5,
        reply: 1,
    },
    Kind::Answered {
        length: 1_393,
        reply: 3,
    },
    Kind::Unanswered { reply: 0 },
    Kind::Answered {
        length: 0,
        reply: 32,
    },
    Kind::Unknown {
        length: 1_392,
        acknowledged: 0,
    },
    Kind::Answered {
        length: 44_544,
        reply: 2,
    },
    Kind::Failed {
        pdu_type: pdu_type::FAULT,
    },
    Kind::Answered {
        length: 2_784,
        reply: 1,
    },
    Kind::Unanswered { reply: 2 },
    Kind::Early { length: 2_785 },
    Kind::Answered {
        length: 1,
        reply: 5,
    },
    Kind::Unknown {
        length: 1_500,
        acknowledged: 1,
    },
    Kind::Failed {
        pdu_type: pdu_type::REJECT,
    },
    Kind::Answered {
        length: 1_391,
        reply: 2,
    },
    Kind::Unknown {
        length: 2_000,
        acknowledged: 2,
    },
    Kind::Early { length: 44_544 },
    Kind::Cancelled { cancels: 1 },
    Kind::Heard { cancels: 2 },
    Kind::Cancelled { cancels: 3 },
];

pub fn whole_call(turn: usize, author: &mut Author) {
    let kind = CALLS[turn % CALLS.len()];
    let ticket_counter = author.random.pick(&[0, 0, 1, 1 << 40, u64::MAX - 3]);
    author.set_fresh(ticket_counter);
    call_of(kind, author);
    author.start(3);
    author.hand_up(0);
}

/// The events of a call.
fn call_of(kind: Kind, author: &mut Author) {
    match kind {
        Kind::Answered { length, reply } => {
            author.start(length);
            author.send_all();
            receive(reply, author);
            finish(reply, author);
        }
        Kind::Unanswered { reply } => {
            author.start(8);
            author.send_all();
            receive_first(reply, reply + 1, author);
            ping_to_the_limit(author);
        }
        Kind::Unknown {
            length,
            acknowledged,
        } => unknown_call(length, acknowledged, author),
        Kind::Early { length } => {
            author.start(length);
            author.transmit();
            receive(2, author);
            finish(2, author);
        }
        Kind::Failed { pdu_type } => {
            author.start(20);
            author.send_all();
            receive_first(1, 3, author);
            author.arrive_of_type(pdu_type);
            author.hand_up(0);
        }
        Kind::Cancelled { cancels } => cancelled_call(cancels, author),
        Kind::Heard { cancels } => heard_call(cancels, author),
    }
}

/// Now and then something else comes between.
fn disturb(author: &mut Author) {
    if author.random.percent(12) && author.record().state.is_active() {
        any_event(author);
    }
}

/// A reply of so many fragments, in any order, some of them twice.
fn receive(count: u16, author: &mut Author) {
    let mut numbers: Vec<u16> = (0..count).collect();
    author.random.shuffle(&mut numbers);
    for number in numbers {
        disturb(author);
        arrive_fragment(number, count, author);
        if author.random.percent(12) {
            arrive_fragment(number, count, author);
        }
    }
}

/// Only the first fragments of a reply, in their order.
fn receive_first(fragments: u16, count: u16, author: &mut Author) {
    for number in 0..fragments {
        arrive_fragment(number, count, author);
    }
}

fn arrive_fragment(number: u16, count: u16, author: &mut Author) {
    let fragment_bits = bits_of(number, count);
    author.arrive(|client, random| Arriving::response_of(number, fragment_bits, client, random));
}

fn finish(reply: u16, author: &mut Author) {
    if author.record().state == State::AckPending && author.random.percent(70) {
        author.late_timer(TimerKind::Ack);
        author.timer(TimerKind::Ack);
    }
    author.timer(TimerKind::Ack);
    for number in [0, reply / 2, reply - 1, reply] {
        author.hand_up(number);
    }
    arrive_fragment(0, reply, author);
}

fn ping_to_the_limit(author: &mut Author) {
    for _ in 0..RETRY_LIMIT {
        author.late_timer(TimerKind::Wait);
        author.timer(TimerKind::Wait);
    }
    author.arrive_of_type(pdu_type::WORKING);
    for _ in 0..=RETRY_LIMIT {
        author.timer(TimerKind::Wait);
    }
}

/// The timer ends the call.
fn cancelled_call(cancels: u32, author: &mut Author) {
    cancel_while_sending(cancels, author);
    author.timer(TimerKind::Cancel);
    author.timer(TimerKind::Wait);
}

/// The last cancel_ack comes in time, and the call goes on.
fn heard_call(cancels: u32, author: &mut Author) {
    cancel_while_sending(cancels, author);
    arrive_cancel_ack(cancels, author);
    author.timer(TimerKind::Cancel);
    author.cancel();
    receive(2, author);
    finish(2, author);
}

/// So many cancels while the request is sent, with the cancel_acks of all but the last.
fn cancel_while_sending(cancels: u32, author: &mut Author) {
    author.start(2_000);
    for number in 1..=cancels {
        author.cancel();
        author.transmit();
        arrive_cancel_ack(number - 1, author);
    }
    author.late_timer(TimerKind::Cancel);
}

fn arrive_cancel_ack(number: u32, author: &mut Author) {
    author.arrive(|client, random| Arriving::cancel_ack_of(number, client, random));
}

fn unknown_call(length: u32, acknowledged: u16, author: &mut Author) {
    author.start(length);
    for _ in 0..=RETRY_LIMIT {
        author.send_all();
        let number = acknowledged.wrapping_sub(1);
        author.arrive(|client, random| Arriving::fack_of(number, client, random));
        author.arrive_of_type(pdu_type::NOCALL);
    }
}
