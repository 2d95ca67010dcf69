//! Server records: sound ones, and ones that break a rule of their own.

use super::events;
use crate::generate::author::Author;
use crate::generate::made::Made;
use crate::generate::parts::{
    any_call, any_incoming, any_outgoing, any_serial, any_timer, call_number, cancel_number,
    no_outgoing, retry_count, ticket_above, ticket_counter, whole_incoming,
};
use crate::generate::random::Random;
use crate::records::call::Call;
use crate::records::incoming::Incoming;
use crate::records::outgoing::Outgoing;
use crate::records::rule::Rule;
use crate::records::server::{Server, ServerFields, ServerSide, State};
use crate::records::timer::Timer;

impl Made for ServerSide {
    fn sound_record(state: State, random: &mut Random) -> Server {
        let counter = ticket_counter(random);
        let status = random.field_u32();
        let mut server = Server::fresh(random.uuid(), random.field_u32(), counter);
        server.state = state;
        server.own.status = status;
        server.number = call_number(random);
        server.call = call_in(state, random);
        server.outgoing = outgoing_in(state, random);
        server.incoming = incoming_in(state, random);
        server.resends = retry_count(random);
        server.own.resend = any_timer(state.is_held(), server.tickets, random);
        server.own.cancel_number = cancel_number(random);
        server
    }

    fn break_own_rule(server: &mut Server, rule: Rule, random: &mut Random) {
        match rule {
            Rule::ResendCount => server.resends = random.pick(&[6, 7, 255]),
            Rule::ResendState => {
                server.own.resend = Some(random.pick(&[0, server.tickets.counter]));
            }
            Rule::ResendTicket => {
                server.leave_a_ticket();
                server.own.resend = ticket_above(server.tickets, random);
            }
            // No rule of a server.
            _ => {}
        }
    }

    fn timers(own: &mut ServerFields) -> Vec<&mut Timer> {
        vec![&mut own.resend]
    }

    fn any_event(author: &mut Author<ServerSide>) {
        events::any_event(author);
    }
}

/// In IDLE repeatable the call is idempotent, though no rule says so.
fn call_in(state: State, random: &mut Random) -> Call {
    let mut call = any_call(random);
    if state == State::IdleRepeatable && random.percent(90) {
        call.idempotent = true;
    }
    call
}

fn outgoing_in(state: State, random: &mut Random) -> Outgoing {
    let serial = any_serial(random);
    match state {
        State::Replying => any_outgoing(true, serial, random),
        State::HeldData => any_outgoing(false, serial, random),
        State::IdleSpent | State::IdleRepeatable if random.percent(50) => {
            any_outgoing(false, serial, random)
        }
        _ => no_outgoing(serial, random),
    }
}

/// Behind COLLECT the message is whole, though no rule says so.
fn incoming_in(state: State, random: &mut Random) -> Incoming {
    let is_behind = !matches!(state, State::Collect | State::IdleFresh);
    if is_behind && random.percent(60) {
        return whole_incoming(random);
    }
    any_incoming(random)
}
