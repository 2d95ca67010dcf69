//! Client records: sound ones, and ones that break a rule of their own.

use super::events;
use crate::generate::author::Author;
use crate::generate::made::Made;
use crate::generate::parts::{
    any_call, any_incoming, any_outgoing, any_serial, any_timer, call_number, cancel_number,
    no_outgoing, retry_count, ticket_above, ticket_counter,
};
use crate::generate::random::Random;
use crate::records::client::{Client, ClientFields, ClientSide, State, TimerKind};
use crate::records::outgoing::Outgoing;
use crate::records::rule::Rule;
use crate::records::timer::Timer;

impl Made for ClientSide {
    fn sound_record(state: State, random: &mut Random) -> Client {
        let counter = ticket_counter(random);
        let mut client = Client::fresh(random.uuid(), counter);
        client.state = state;
        client.number = call_number(random);
        client.call = any_call(random);
        client.outgoing = outgoing_in(state, random);
        client.incoming = any_incoming(random);
        client.own.waits = retry_count(random);
        client.resends = retry_count(random);
        client.own.wait = any_timer(state.names(TimerKind::Wait), client.tickets, random);
        client.own.ack = any_timer(state.names(TimerKind::Ack), client.tickets, random);
        let is_cancelled = state.names(TimerKind::Cancel) && random.percent(50);
        client.own.cancel = any_timer(is_cancelled, client.tickets, random);
        client.own.cancel_number = cancel_number(random);
        client
    }

    fn break_own_rule(client: &mut Client, rule: Rule, random: &mut Random) {
        if let Rule::WaitTicket | Rule::AckTicket | Rule::CancelTicket = rule {
            client.leave_a_ticket();
        }
        let elsewhere = Some(random.pick(&[0, client.tickets.counter]));
        let own = &mut client.own;
        match rule {
            Rule::WaitCount => own.waits = random.pick(&[6, 7, 255]),
            Rule::Resends => client.resends = random.pick(&[6, 7, 255]),
            Rule::WaitState => own.wait = elsewhere,
            Rule::AckState => own.ack = elsewhere,
            Rule::CancelState => own.cancel = elsewhere,
            Rule::WaitTicket => own.wait = ticket_above(client.tickets, random),
            Rule::AckTicket => own.ack = ticket_above(client.tickets, random),
            Rule::CancelTicket => own.cancel = ticket_above(client.tickets, random),
            // No rule of a client.
            _ => {}
        }
    }

    fn timers(own: &mut ClientFields) -> Vec<&mut Timer> {
        vec![&mut own.wait, &mut own.ack, &mut own.cancel]
    }

    fn any_event(author: &mut Author<ClientSide>) {
        events::any_event(author);
    }
}

fn outgoing_in(state: State, random: &mut Random) -> Outgoing {
    let serial = any_serial(random);
    match state {
        State::Queued => no_outgoing(serial, random),
        _ => any_outgoing(state == State::SendFrags, serial, random),
    }
}
