//! The cases of the client.

use crate::both::{refused_at_once, transmits};
use crate::case::{Case, CAUSE, COUNT, DONE, FAULT, LAST, REJECT};
use crate::event::{Event, ACK, CANCEL, RESEND, WAIT};
use crate::machine::{
    changed, dispatched, dispatched_idempotent, requests, responses, running, started, Machine, ONE_TICKET_LEFT,
};
use morphelai::header::{LAST_FRAGMENT, NO_FACK};
use morphelai::{PduType, FRAGMENT_SIZE, MESSAGE_SIZE};

pub fn cases() -> Vec<Case> {
    [
        starts(),
        transmits(PduType::Request, started),
        cancels(),
        timers(),
        responses_taken(),
        others_taken(),
        refused_responses(),
        refused_others(),
    ]
    .into_iter()
    .flatten()
    .collect()
}

/// A client that has the whole reply, of one fragment of that length.
fn answered(length: usize) -> Machine {
    dispatched(0).arrived(&responses(length)[0])
}

/// A client that has cancelled its call.
fn cancelled() -> Machine {
    dispatched(0).after(Event::Cancel)
}

/// The answer to that cancel.
fn cancel_ack() -> Vec<u8> {
    running(0).arrived(&cancelled().sent).sent
}

/// The answer to the first fragment of a long request.
fn fack() -> Vec<u8> {
    Machine::server(0).arrived(&requests(MESSAGE_SIZE)[0]).sent
}

/// The answer to a request that comes again while its call runs.
fn working() -> Vec<u8> {
    running(0).arrived(&requests(1)[0]).sent
}

fn starts() -> Vec<Case> {
    let queued = Machine::client(0);
    let complete = answered(1).timed(ACK, 1);
    let last_number = (16..20).fold(complete.clone(), |machine, at| machine.changed(at, u8::MAX));
    let start = || Event::start(MESSAGE_SIZE);
    let mut cases = vec![
        queued.case("fresh", Event::Fresh, DONE),
        queued.case("start", start(), DONE),
        complete.case("start-next", start(), DONE),
        dispatched(0).refused("start", start(), 15),
        last_number.refused("start", start(), 19),
    ];
    cases.extend(queued.misused("start", start));
    cases
}

fn cancels() -> Vec<Case> {
    let sending = DONE.sending(PduType::Cancel);
    let mut cases = vec![
        dispatched(0).case("cancel", Event::Cancel, sending),
        cancelled().case("cancel-again", Event::Cancel, sending),
        answered(1).refused("cancel", Event::Cancel, 15),
        dispatched(ONE_TICKET_LEFT).refused("cancel", Event::Cancel, 20),
    ];
    cases.extend(dispatched(0).misused("cancel", || Event::Cancel));
    cases
}

fn timers() -> Vec<Case> {
    let (waiting, sending) = (dispatched(0), started(0, 1));
    let (at_limit, no_tickets) = (waiting.clone().timed(WAIT, 5), dispatched(ONE_TICKET_LEFT));
    let late = |kind| Event::Timer { kind, ticket: 99 };
    let mut cases = vec![
        waiting.case("timer-wait", waiting.timer(WAIT), DONE.sending(PduType::Ping)),
        at_limit.case("timer-wait-limit", at_limit.timer(WAIT), DONE.telling(CAUSE)),
        answered(1).case("timer-ack", answered(1).timer(ACK), DONE.sending(PduType::Ack)),
        cancelled().case("timer-cancel", cancelled().timer(CANCEL), DONE.telling(CAUSE)),
        sending.refused("timer-wait", late(WAIT), 15),
        sending.refused("timer-ack", late(ACK), 15),
        answered(1).refused("timer-cancel", late(CANCEL), 15),
        waiting.refused("timer-unknown", late(RESEND), 15),
        waiting.refused("timer-wait", late(WAIT), 18),
        answered(1).refused("timer-ack", late(ACK), 18),
        cancelled().refused("timer-cancel", late(CANCEL), 18),
        no_tickets.refused("timer-wait", no_tickets.timer(WAIT), 20),
    ];
    cases.extend(waiting.misused("timer-wait", || waiting.timer(WAIT)));
    cases
}

fn responses_taken() -> Vec<Case> {
    let waiting = dispatched(0);
    let idempotent = dispatched_idempotent();
    let several = responses(MESSAGE_SIZE);
    let all_but_last = several[..31].iter().fold(waiting.clone(), |machine, pdu| machine.arrived(pdu));
    let alone = Event::arrive(&responses(FRAGMENT_SIZE)[0]);
    let no_fack = changed(&several[0], 2, several[0][2] | NO_FACK);
    let fack = DONE.sending(PduType::Fack);
    vec![
        waiting.case("arrive-response-empty", Event::arrive(&responses(0)[0]), DONE.telling(LAST)),
        waiting.case("arrive-response-alone", alone, DONE.telling(LAST)),
        idempotent.case("arrive-response-idempotent", Event::arrive(&responses(1)[0]), DONE.telling(LAST)),
        waiting.case("arrive-response-first", Event::arrive(&several[0]), fack.telling(COUNT)),
        waiting.case("arrive-response-gap", Event::arrive(&several[30]), fack.telling(COUNT)),
        waiting.case("arrive-response-no-fack", Event::arrive(&no_fack), DONE.telling(COUNT)),
        all_but_last.case("arrive-response-last", Event::arrive(&several[31]), fack.telling(LAST)),
        answered(FRAGMENT_SIZE).case("part", Event::Part, DONE),
    ]
}

fn others_taken() -> Vec<Case> {
    let waiting = dispatched(0);
    let fault = running(0).after(Event::Fault).sent;
    let ping = waiting.clone().timed(WAIT, 1).sent;
    let nocall = Machine::server(0).arrived(&ping).sent;
    let at_limit = (0..5).fold(waiting.clone(), |machine, _| machine.arrived(&nocall).after(Event::Transmit(1)));
    let first_sent = started(0, MESSAGE_SIZE).after(Event::Transmit(MESSAGE_SIZE));
    vec![
        waiting.case("arrive-fault", Event::arrive(&fault), DONE.telling(FAULT)),
        waiting.case("arrive-reject", Event::arrive(&changed(&fault, 1, 6)), DONE.telling(REJECT)),
        waiting.case("arrive-working", Event::arrive(&working()), DONE),
        waiting.case("arrive-nocall", Event::arrive(&nocall), DONE),
        at_limit.case("arrive-nocall-limit", Event::arrive(&nocall), DONE.telling(CAUSE)),
        first_sent.case("arrive-fack", Event::arrive(&fack()), DONE),
        cancelled().case("arrive-cancel_ack", Event::arrive(&cancel_ack()), DONE),
    ]
}

fn refused_responses() -> Vec<Case> {
    let waiting = dispatched(0);
    let (response, several) = (&responses(1)[0], responses(MESSAGE_SIZE));
    let second_held = waiting.clone().arrived(&several[1]);
    // Fragment 1 is held, and 0 is to be the last.
    let contradiction = changed(&several[0], 2, several[0][2] | LAST_FRAGMENT);
    let mut cases = refused_at_once(&waiting, "arrive-response", response, 0);
    cases.extend([
        waiting.refused("arrive-response", Event::arrive(&changed(response, 76, 1)), 12),
        waiting.refused("arrive-response", Event::arrive(&changed(response, 64, 1)), 13),
        answered(1).refused("arrive-response", Event::arrive(response), 15),
        second_held.refused("arrive-response", Event::arrive(&several[1]), 16),
        second_held.refused("arrive-response", Event::arrive(&contradiction), 17),
        dispatched(ONE_TICKET_LEFT).refused("arrive-response", Event::arrive(response), 20),
    ]);
    cases
}

fn refused_others() -> Vec<Case> {
    let waiting = dispatched(0);
    let mut fault = running(0).after(Event::Fault).sent;
    fault.pop();
    fault[74] = 3;
    let other_number = changed(&cancel_ack(), 84, 2);
    let mut cases = vec![
        waiting.refused("arrive-fault", Event::arrive(&fault), 14),
        waiting.refused("arrive-fack", Event::arrive(&changed(&fack(), 80, 1)), 14),
        cancelled().refused("arrive-cancel_ack", Event::arrive(&changed(&cancel_ack(), 80, 1)), 14),
        started(0, 1).refused("arrive-working", Event::arrive(&working()), 15),
        cancelled().refused("arrive-cancel_ack", Event::arrive(&other_number), 15),
        waiting.refused("arrive-fack", Event::arrive(&changed(&fack(), 76, 9)), 17),
        dispatched(ONE_TICKET_LEFT).refused("arrive-working", Event::arrive(&working()), 20),
    ];
    // Of a call that is not the client's.
    for (name, pdu) in [("working", working()), ("fack", fack()), ("cancel_ack", cancel_ack())] {
        cases.push(waiting.refused(&format!("arrive-{name}"), Event::arrive(&changed(&pdu, 64, 1)), 13));
    }
    cases
}
