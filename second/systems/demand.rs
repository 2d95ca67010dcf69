//! Demand 3, a single claim over a list of events, checked event by event with books of its own.
//!
//! The books know what was started, cancelled, dispatched and replied, the bytes that both slot
//! buffers must hold, and the tickets that are armed. They take from the machines only what these
//! give out: the answer, the PDU, the notice, the record and what is handed up.

use crate::bench::bench::Bench;
use crate::bench::memory::PDU_FILL;
use crate::bench::post::Benched;
use crate::codec::pdu::pdu_type;
use crate::machines::effect::{Effect, Notice};
use crate::machines::event::Event;
use crate::records::client::{Client, ClientEvent, ClientSide, State as ClientState, TimerKind};
use crate::records::incoming::SLOT_BUFFER_LENGTH;
use crate::records::server::{Answer, Resend, Server, ServerSide, State as ServerState};
use crate::systems::demand_side::{check, is_of_type, number_of, Broken, Demanded, SideBook, Step};

/// A call that was started.
pub(super) struct Book {
    idempotent: bool,
    message: Vec<u8>,
    dispatches: u32,
    replies: Vec<Vec<u8>>,
    /// How often the client has cancelled it.
    pub(super) cancels: usize,
}

/// The books of one run.
pub struct Demand {
    /// By call number.
    pub(super) calls: Vec<Book>,
    pub(super) last_dispatched: Option<usize>,
    /// The number of the last cancel that the server noticed since then, 0 where there is none.
    pub(super) last_noticed: usize,
    /// What the client handed up after its last event.
    handed_up: Vec<u8>,
    client: SideBook<ClientSide>,
    server: SideBook<ServerSide>,
}

impl Demand {
    /// The books of two fresh sides.
    pub fn new() -> Demand {
        Demand {
            calls: Vec::new(),
            last_dispatched: None,
            last_noticed: 0,
            handed_up: Vec::new(),
            client: SideBook::new(),
            server: SideBook::new(),
        }
    }

    /// Checks an event of a side against the demand, and follows it.
    pub fn check<S: Demanded>(&mut self, step: &Step<S>) -> Result<(), Broken> {
        let bench = step.bench;
        S::book(self).check_late(step)?;
        match step.outcome {
            Ok(effect) => {
                S::book(self).done(step, effect)?;
                S::check_own(self, step, effect)?;
            }
            Err(_) => {
                let mut sent = bench.memory::<S>().pdu.whole().iter();
                let is_same = bench.record::<S>() == step.before;
                let is_untouched = sent.all(|byte| *byte == PDU_FILL);
                check(is_same && is_untouched, "a refusal changes something")?;
            }
        }
        S::book(self).check_slots(bench)
    }

    /// The numbers go up by one from 0.
    fn started(&mut self, number: u32, idempotent: bool, message: &[u8]) -> Result<(), Broken> {
        check(
            number as usize == self.calls.len(),
            "a start has another number",
        )?;
        self.calls.push(Book {
            idempotent,
            message: message.to_vec(),
            dispatches: 0,
            replies: Vec::new(),
            cancels: 0,
        });
        self.handed_up.clear();
        Ok(())
    }

    /// Empty or a leading part of one reply given to the client's number, and it only grows. At
    /// the notice "last" it is all of a reply.
    fn client_hands_up(&mut self, notice: Option<Notice>, bench: &Bench) -> Result<(), Broken> {
        let handed_up = handed_up::<ClientSide>(bench);
        let number = bench.record::<ClientSide>().number;
        let replies = match self.calls.get(number as usize) {
            Some(call) => &call.replies[..],
            None => &[],
        };
        let is_part = replies.iter().any(|reply| reply.starts_with(&handed_up));
        check(
            handed_up.is_empty() || is_part,
            "the client hands up what is no part of a reply",
        )?;
        check(
            handed_up.starts_with(&self.handed_up),
            "what the client hands up does not only grow",
        )?;
        check(
            notice != Some(Notice::Last) || replies.contains(&handed_up),
            "the client is complete without a whole reply",
        )?;
        self.handed_up = handed_up;
        Ok(())
    }

    /// A reply is given to the number last dispatched.
    fn replied(&mut self, message: &[u8]) -> Result<(), Broken> {
        let number = self.last_dispatched.ok_or("a reply before any dispatch")?;
        self.calls[number].replies.push(message.to_vec());
        Ok(())
    }

    /// A call runs once, or is idempotent, and is handed up the message of its start.
    fn dispatched(&mut self, number: usize, bench: &Bench) -> Result<(), Broken> {
        let call = self
            .calls
            .get_mut(number)
            .ok_or("a dispatch of a call that was not started")?;
        call.dispatches += 1;
        self.last_dispatched = Some(number);
        self.last_noticed = 0;
        check(
            call.idempotent || call.dispatches == 1,
            "a call that is not idempotent is dispatched twice",
        )?;
        check(
            handed_up::<ServerSide>(bench) == call.message,
            "a dispatch is handed up another message",
        )
    }
}

impl Demanded for ClientSide {
    fn book(books: &mut Demand) -> &mut SideBook<ClientSide> {
        &mut books.client
    }

    fn is_put(_: &[u8], _: &Client, effect: &Effect) -> bool {
        matches!(effect.notice, Some(Notice::Last | Notice::Count(_)))
    }

    fn is_over(state: ClientState) -> bool {
        matches!(state, ClientState::Complete | ClientState::Fault)
    }

    /// The local cancel arms CANCEL, and no other event does.
    fn is_armed_in(event: &Event<ClientSide>, kind: TimerKind) -> bool {
        let is_cancel = matches!(event, Event::Own(ClientEvent::Cancel));
        is_cancel == (kind == TimerKind::Cancel)
    }

    /// Within a call only a cancel_ack disarms CANCEL.
    fn is_disarmed_in(event: &Event<ClientSide>, kind: TimerKind) -> bool {
        match event {
            Event::Arrive { datagram } => {
                kind == TimerKind::Cancel && is_of_type(pdu_type::CANCEL_ACK, datagram)
            }
            _ => false,
        }
    }

    fn check_own(
        books: &mut Demand,
        step: &Step<ClientSide>,
        effect: &Effect,
    ) -> Result<(), Broken> {
        let after = step.bench.record::<ClientSide>();
        match step.event {
            Event::Own(ClientEvent::Start(start)) => {
                books.started(after.number, start.call.idempotent, step.message)?;
            }
            Event::Own(ClientEvent::Cancel) => books.cancelled(step.before, after)?,
            Event::Arrive { datagram } if is_of_type(pdu_type::CANCEL_ACK, datagram) => {
                books.cancel_acknowledged(datagram, step.before)?;
            }
            _ => {}
        }
        books.client_hands_up(effect.notice, step.bench)
    }
}

impl Demanded for ServerSide {
    fn book(books: &mut Demand) -> &mut SideBook<ServerSide> {
        &mut books.server
    }

    /// Of the rows that take a request only those that put lead to COLLECT or dispatch.
    fn is_put(datagram: &[u8], after: &Server, effect: &Effect) -> bool {
        let is_request = is_of_type(pdu_type::REQUEST, datagram);
        let leads_on = after.state == ServerState::Collect || effect.notice.is_some();
        is_request && leads_on
    }

    fn is_over(state: ServerState) -> bool {
        state.is_idle()
    }

    fn is_armed_in(_: &Event<ServerSide>, _: Resend) -> bool {
        true
    }

    fn is_disarmed_in(_: &Event<ServerSide>, _: Resend) -> bool {
        false
    }

    fn check_own(
        books: &mut Demand,
        step: &Step<ServerSide>,
        effect: &Effect,
    ) -> Result<(), Broken> {
        if let Event::Own(Answer::Reply { .. }) = step.event {
            books.replied(step.message)?;
        }
        match (step.event, effect.notice) {
            (Event::Arrive { datagram }, Some(Notice::Dispatch)) => {
                books.dispatched(number_of(datagram), step.bench)
            }
            (Event::Arrive { datagram }, Some(Notice::Cancel))
                if is_of_type(pdu_type::CANCEL, datagram) =>
            {
                books.cancel_noticed(datagram, step)
            }
            (_, None) => Ok(()),
            _ => Err("the server gives another notice than a dispatch or a cancel".into()),
        }
    }
}

/// What a side hands up: the parts of all fragments, joined in order.
fn handed_up<S: Benched>(bench: &Bench) -> Vec<u8> {
    let record = bench.record::<S>();
    let slots = &bench.memory::<S>().slots.whole()[..SLOT_BUFFER_LENGTH];
    let mut parts = Vec::new();
    for number in 0..record.incoming.held().contiguous() as u8 {
        parts.extend_from_slice(record.hand_up(number, slots));
    }
    parts
}
