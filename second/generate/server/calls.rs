//! Whole calls of a server, event by event from a fresh record.

use crate::codec::pdu::{flags1, pdu_type};
use crate::generate::arriving::bits_of;
use crate::generate::parts::any_call;
use crate::generate::random::Random;
use crate::generate::server::author::Author;
use crate::generate::server::events::any_event;
use crate::generate::server::pdus as pdu;
use crate::records::call::Call;
use crate::records::server::{Resend, State};
use crate::records::timer::RETRY_LIMIT;

/// How a call ends.
#[derive(Clone, Copy)]
enum Ending {
    /// A reply of so many bytes is acknowledged.
    Acknowledged {
        length: u32,
    },
    /// A reply of so many bytes is never acknowledged.
    Held {
        length: u32,
    },
    /// A fault is acknowledged.
    Faulted,
    HeldFault,
    /// The call runs once more after a reply of so many bytes, if it may.
    Repeated {
        length: u32,
    },
    /// A newer call comes before the answer is sent.
    Overtaken {
        length: u32,
    },
}

/// So many fragments of a request, whether the call is idempotent, and how it ends.
const CALLS: [(u16, bool, Ending); 14] = [
    (1, false, Ending::Acknowledged { length: 5 }),
    (2, false, Ending::Held { length: 1_393 }),
    (1, true, Ending::Repeated { length: 1_392 }),
    (3, false, Ending::HeldFault),
    (1, true, Ending::Held { length: 2_784 }),
    (32, false, Ending::Acknowledged { length: 0 }),
    (1, false, Ending::Faulted),
    (2, true, Ending::Repeated { length: 0 }),
    (1, false, Ending::Overtaken { length: 2_785 }),
    (4, true, Ending::Faulted),
    (1, false, Ending::Held { length: 1 }),
    (2, false, Ending::Acknowledged { length: 44_544 }),
    (1, true, Ending::Repeated { length: 1_393 }),
    (1, true, Ending::Overtaken { length: 1_391 }),
];

/// A request that the other side sends.
struct Request {
    number: u32,
    call: Call,
    fragments: u16,
}

pub fn whole_call(turn: usize, author: &mut Author) {
    let (fragments, idempotent, ending) = CALLS[turn % CALLS.len()];
    let ticket_counter = author.random.pick(&[0, 0, 1, 1 << 40, u64::MAX - 3]);
    author.set_fresh(ticket_counter);
    let mut call = any_call(&mut author.random);
    call.idempotent = idempotent;
    let request = Request {
        number: author.random.pick(&[0, 1, 1 << 31, u32::MAX - 1]),
        call,
        fragments,
    };
    author.arrive_of_type(pdu_type::FACK);
    collect(&request, author);
    author.hand_up(0);
    disturb(author);
    end(ending, &request, author);
    author.hand_up(0);
}

fn end(ending: Ending, request: &Request, author: &mut Author) {
    match ending {
        Ending::Acknowledged { length } => {
            answer(length, author);
            disturb(author);
            author.arrive_of_type(pdu_type::ACK);
            arrive_fragment(0, request, author);
        }
        Ending::Held { length } => {
            answer(length, author);
            resend_to_the_limit(author);
            arrive_fragment(0, request, author);
        }
        Ending::Faulted => {
            author.fault();
            author.arrive_of_type(pdu_type::ACK);
            arrive_fragment(0, request, author);
        }
        Ending::HeldFault => {
            author.fault();
            author.arrive_of_type(pdu_type::PING);
            resend_to_the_limit(author);
        }
        Ending::Repeated { length } => {
            answer(length, author);
            collect(request, author);
            answer(length + 1, author);
        }
        Ending::Overtaken { length } => overtake(length, request, author),
    }
}

fn overtake(length: u32, request: &Request, author: &mut Author) {
    let newer = Request {
        number: request.number.saturating_add(1),
        call: any_call(&mut author.random),
        fragments: 1,
    };
    // While the call runs, a newer one must wait.
    arrive_fragment(0, &newer, author);
    author.reply(length);
    author.transmit();
    collect(&newer, author);
    author.hand_up(0);
}

/// Now and then something else comes between.
fn disturb(author: &mut Author) {
    if author.random.percent(12) {
        any_event(author);
    }
}

/// The fragments of a request in any order, some of them twice.
fn collect(request: &Request, author: &mut Author) {
    let mut numbers: Vec<u16> = (0..request.fragments).collect();
    author.random.shuffle(&mut numbers);
    for number in numbers {
        arrive_fragment(number, request, author);
        if author.random.percent(12) {
            arrive_fragment(number, request, author);
        }
    }
}

fn arrive_fragment(number: u16, request: &Request, author: &mut Author) {
    let bits = bits_of(number, request.fragments);
    author.arrive(|server, random: &mut Random| {
        let mut arriving = pdu::request_at((number, bits), server, random);
        arriving.header.call_number = request.number;
        pdu::set_call(&mut arriving.header, &request.call);
        if random.percent(70) {
            arriving.header.flags1 &= !flags1::NO_FACK;
        }
        arriving
    });
}

fn answer(length: u32, author: &mut Author) {
    author.reply(length);
    author.send_all();
}

fn resend_to_the_limit(author: &mut Author) {
    for _ in 0..=RETRY_LIMIT {
        author.late_timer(Resend);
        author.timer(Resend);
        if author.record().state == State::Replying {
            author.send_all();
        }
    }
}
