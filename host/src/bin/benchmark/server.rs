//! The cases of the server.

use crate::both::{refused_at_once, transmits};
use crate::case::{Case, CANCEL, DISPATCH, DONE};
use crate::event::{Event, ACK, RESEND, WAIT};
use crate::machine::{
    changed, dispatched, dispatched_idempotent, replying, requests, responses, running, Machine, ONE_TICKET_LEFT,
};
use morphelai::header::{LAST_FRAGMENT, NO_FACK};
use morphelai::{PduType, FRAGMENT_SIZE, MESSAGE_SIZE};

/// flags1: a maybe call.
const MAYBE: u8 = 16;

pub fn cases() -> Vec<Case> {
    [
        replies(),
        transmits(PduType::Response, replying),
        faults(),
        timers(),
        requests_taken(),
        others_taken(),
        refused_requests(),
        refused_others(),
    ]
    .into_iter()
    .flatten()
    .collect()
}

/// A server that has begun to collect a long request.
fn collecting() -> Machine {
    Machine::server(0).arrived(&requests(MESSAGE_SIZE)[0])
}

/// A server that holds a reply of one byte.
fn held() -> Machine {
    replying(0, 1).after(Event::Transmit(1))
}

/// A server that holds a fault; its ticket counter started from there.
fn held_fault(tickets: u64) -> Machine {
    running(tickets).after(Event::Fault)
}

fn ping() -> Vec<u8> {
    dispatched(0).timed(WAIT, 1).sent
}

fn ack() -> Vec<u8> {
    dispatched(0).arrived(&responses(1)[0]).timed(ACK, 1).sent
}

/// The answer to the first fragment of a long reply.
fn fack() -> Vec<u8> {
    dispatched(0).arrived(&responses(MESSAGE_SIZE)[0]).sent
}

fn cancel() -> Vec<u8> {
    dispatched(0).after(Event::Cancel).sent
}

fn replies() -> Vec<Case> {
    let mut cases = vec![
        Machine::server(0).case("fresh", Event::Fresh, DONE),
        running(0).case("reply", Event::Reply(MESSAGE_SIZE), DONE),
        running(0).refused("reply-message", Event::Reply(MESSAGE_SIZE + 1), 1),
        held().refused("reply", Event::Reply(1), 15),
    ];
    cases.extend(running(0).misused("reply", || Event::Reply(1)));
    cases
}

fn faults() -> Vec<Case> {
    let idempotent = Machine::server(0).arrived(&dispatched_idempotent().sent);
    let sending = DONE.sending(PduType::Fault);
    let mut cases = vec![
        running(0).case("fault", Event::Fault, sending),
        idempotent.case("fault-idempotent", Event::Fault, sending),
        held().refused("fault", Event::Fault, 15),
        running(u64::MAX).refused("fault", Event::Fault, 20),
    ];
    cases.extend(running(0).misused("fault", || Event::Fault));
    cases
}

fn timers() -> Vec<Case> {
    let (data, fault, no_tickets) = (held(), held_fault(0), held_fault(ONE_TICKET_LEFT));
    let at_limit = fault.clone().timed(RESEND, 5);
    let late = |kind| Event::Timer { kind, ticket: 99 };
    let mut cases = vec![
        data.case("timer-resend-data", data.timer(RESEND), DONE),
        fault.case("timer-resend-fault", fault.timer(RESEND), DONE.sending(PduType::Fault)),
        at_limit.case("timer-resend-limit", at_limit.timer(RESEND), DONE),
        running(0).refused("timer-resend", late(RESEND), 15),
        data.refused("timer-unknown", late(WAIT), 15),
        data.refused("timer-resend", late(RESEND), 18),
        no_tickets.refused("timer-resend", no_tickets.timer(RESEND), 20),
    ];
    cases.extend(data.misused("timer-resend", || data.timer(RESEND)));
    cases
}

fn requests_taken() -> Vec<Case> {
    let (fresh, several) = (Machine::server(0), requests(MESSAGE_SIZE));
    let (alone, again) = (&requests(FRAGMENT_SIZE)[0], || Event::arrive(&requests(1)[0]));
    let all_but_last = several[..31].iter().fold(fresh.clone(), |machine, pdu| machine.arrived(pdu));
    let no_fack = changed(&several[0], 2, several[0][2] | NO_FACK);
    let fack = DONE.sending(PduType::Fack);
    vec![
        fresh.case("arrive-request-empty", Event::arrive(&requests(0)[0]), DONE.telling(DISPATCH)),
        fresh.case("arrive-request-alone", Event::arrive(alone), DONE.telling(DISPATCH)),
        fresh.case("arrive-request-first", Event::arrive(&several[0]), fack),
        fresh.case("arrive-request-gap", Event::arrive(&several[30]), fack),
        fresh.case("arrive-request-no-fack", Event::arrive(&no_fack), DONE),
        collecting().case("arrive-request-put", Event::arrive(&several[1]), fack),
        all_but_last.case("arrive-request-last", Event::arrive(&several[31]), fack.telling(DISPATCH)),
        running(0).case("arrive-request-running", again(), DONE.sending(PduType::Working)),
        held().case("arrive-request-held", again(), DONE),
        held_fault(0).case("arrive-request-held-fault", again(), DONE.sending(PduType::Fault)),
        fresh.clone().arrived(alone).case("part", Event::Part, DONE),
    ]
}

fn others_taken() -> Vec<Case> {
    let first_sent = replying(0, MESSAGE_SIZE).after(Event::Transmit(MESSAGE_SIZE));
    let told = running(0).arrived(&cancel());
    let (ping, cancel) = (|| Event::arrive(&ping()), || Event::arrive(&cancel()));
    let cancel_ack = DONE.sending(PduType::CancelAck);
    vec![
        running(0).case("arrive-ping-running", ping(), DONE.sending(PduType::Working)),
        Machine::server(0).case("arrive-ping-fresh", ping(), DONE.sending(PduType::Nocall)),
        held().case("arrive-ping-held", ping(), DONE),
        held().case("arrive-ack", Event::arrive(&ack()), DONE),
        first_sent.case("arrive-fack", Event::arrive(&fack()), DONE),
        running(0).case("arrive-cancel-running", cancel(), cancel_ack.telling(CANCEL)),
        told.case("arrive-cancel-again", cancel(), cancel_ack),
        collecting().case("arrive-cancel-collect", cancel(), cancel_ack),
    ]
}

fn refused_requests() -> Vec<Case> {
    let (request, several) = (&requests(1)[0], requests(MESSAGE_SIZE));
    let second_held = Machine::server(0).arrived(&several[1]);
    // Fragment 1 is held, and 0 is to be the last.
    let contradiction = changed(&several[0], 2, several[0][2] | LAST_FRAGMENT);
    let newer = changed(request, 64, 1);
    let next_runs = Machine::server(0).arrived(&newer);
    let mut cases = refused_at_once(&held(), "arrive-request", request, 2);
    cases.extend([
        running(0).refused("arrive-request", Event::arrive(&changed(request, 2, MAYBE)), 11),
        running(0).refused("arrive-request", Event::arrive(&changed(request, 76, 1)), 12),
        next_runs.refused("arrive-request", Event::arrive(request), 13),
        held().arrived(&ack()).refused("arrive-request-spent", Event::arrive(request), 13),
        running(0).refused("arrive-request", Event::arrive(&newer), 15),
        replying(0, 1).refused("arrive-request", Event::arrive(request), 16),
        second_held.refused("arrive-request-put", Event::arrive(&several[1]), 16),
        second_held.refused("arrive-request-put", Event::arrive(&contradiction), 17),
        running(0).refused("arrive-request", Event::arrive(&changed(request, 8, 1)), 17),
    ]);
    cases
}

fn refused_others() -> Vec<Case> {
    let next_runs = Machine::server(0).arrived(&changed(&requests(1)[0], 64, 1));
    let mut cases: Vec<Case> = [("ping", ping()), ("ack", ack()), ("fack", fack()), ("cancel", cancel())]
        .iter()
        .map(|(name, pdu)| next_runs.refused(&format!("arrive-{name}"), Event::arrive(pdu), 13))
        .collect();
    cases.extend([
        held().refused("arrive-fack", Event::arrive(&changed(&fack(), 80, 1)), 14),
        running(0).refused("arrive-cancel", Event::arrive(&changed(&cancel(), 80, 1)), 14),
        running(0).refused("arrive-ack", Event::arrive(&ack()), 15),
        running(0).refused("arrive-fack", Event::arrive(&fack()), 15),
        Machine::server(0).refused("arrive-cancel", Event::arrive(&cancel()), 15),
        replying(0, 1).refused("arrive-ping", Event::arrive(&ping()), 16),
        held().refused("arrive-fack", Event::arrive(&changed(&fack(), 76, 9)), 17),
    ]);
    cases
}
