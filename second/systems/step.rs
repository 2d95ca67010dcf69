//! The events of a run: each takes place, is given to the network and is checked against demand 3.

use crate::bench::bench::Outcome;
use crate::bench::message::message;
use crate::bench::post::Benched;
use crate::coverage::step::Counted;
use crate::generate::random::Random;
use crate::machines::effect::Notice;
use crate::machines::event::Event;
use crate::records::call::Call;
use crate::records::client::{ClientEvent, ClientSide, Start};
use crate::records::outgoing::MESSAGE_LIMIT;
use crate::records::server::{Answer, ServerSide};
use crate::systems::demand::Demand;
use crate::systems::demand_side::{Broken, Demanded, Step};
use crate::systems::network::{Air, Line, Weather};
use crate::systems::run::Author;
use std::rc::Rc;

/// What a side has in a run beside its record.
pub struct Half {
    /// What is sent to it.
    pub line: Line,
    /// The message of its last accepted start or reply, which is lent at each of its transmits.
    pub message: Rc<[u8]>,
}

impl Half {
    /// Nothing is sent, and no message is out.
    fn new() -> Half {
        Half {
            line: Line::new(),
            message: Rc::new([]),
        }
    }
}

/// What joins the two sides in a run.
pub struct System {
    pub weather: Weather,
    pub client: Half,
    pub server: Half,
    pub demand: Demand,
}

/// A side that is joined with the other.
pub trait Joined: Demanded + Benched + Counted {
    /// Its own half, and the other side's.
    fn halves(system: &mut System) -> (&mut Half, &mut Half);
    /// How what is sent to it fares.
    fn air(weather: Weather) -> Air;
}

impl Joined for ClientSide {
    fn halves(system: &mut System) -> (&mut Half, &mut Half) {
        (&mut system.client, &mut system.server)
    }

    fn air(weather: Weather) -> Air {
        weather.to_client
    }
}

impl Joined for ServerSide {
    fn halves(system: &mut System) -> (&mut Half, &mut Half) {
        (&mut system.server, &mut system.client)
    }

    fn air(weather: Weather) -> Air {
        weather.to_server
    }
}

/// A ticket that was armed once, or never, or is armed after all.
fn any_ticket(counter: u64, random: &mut Random) -> u64 {
    let before = random.between(1, 9) as u64;
    random.pick(&[
        counter,
        counter.wrapping_add(1),
        counter.wrapping_sub(1),
        counter.wrapping_sub(before),
        0,
    ])
}

/// The message of a start or reply, if it is one at all.
fn any_message(length: u32, random: &mut Random) -> Rc<[u8]> {
    let length = length as usize;
    let seed = random.u8();
    match length <= MESSAGE_LIMIT {
        true => message(length, seed).into(),
        false => Rc::new([]),
    }
}

impl System {
    /// Two fresh sides in any weather.
    pub fn new(random: &mut Random) -> System {
        System {
            weather: Weather::any(random),
            client: Half::new(),
            server: Half::new(),
            demand: Demand::new(),
        }
    }

    /// An event; one that brings a message has it beside it.
    fn event<S: Joined>(
        &mut self,
        event: Event<S>,
        message: Option<Rc<[u8]>>,
        author: &mut Author,
    ) -> Result<(), Broken> {
        let before = author.bench.record::<S>().clone();
        let Some(outcome) = author.event_of(&event) else {
            return Ok(());
        };
        let (own, other) = S::halves(self);
        if let Some(pdu) = sent_pdu(&outcome, author.bench.memory::<S>().pdu.whole()) {
            other.line.send(pdu);
        }
        let accepted = message.filter(|_| outcome.is_ok());
        if let Some(message) = &accepted {
            own.message = Rc::clone(message);
        }
        self.demand.check(&Step {
            before: &before,
            event: &event,
            message: accepted.as_deref().unwrap_or_default(),
            outcome: &outcome,
            bench: &author.bench,
        })?;
        if let Ok(effect) = outcome {
            ask_for_parts::<S>(effect.notice, author);
        }
        Ok(())
    }

    /// The message of the start or reply, or one of a wrong length, which is refused where there
    /// is one.
    pub fn transmit<S: Joined>(
        &mut self,
        wrong: Option<usize>,
        author: &mut Author,
    ) -> Result<(), Broken> {
        let right = Rc::clone(&S::halves(self).0.message);
        let message = match wrong {
            Some(length) if length != right.len() => message(length, 0).into(),
            _ => right,
        };
        let message = &message;
        self.event::<S>(Event::Transmit { message }, None, author)
    }

    /// What the network delivers, if it delivers anything.
    pub fn arrive<S: Joined>(&mut self, author: &mut Author) -> Result<(), Broken> {
        let air = S::air(self.weather);
        let (own, _) = S::halves(self);
        match own.line.deliver(air, &mut author.random) {
            Some(datagram) => self.arrive_of::<S>(&datagram, author),
            None => Ok(()),
        }
    }

    /// A datagram that was sent to the side.
    pub fn arrive_of<S: Joined>(
        &mut self,
        datagram: &[u8],
        author: &mut Author,
    ) -> Result<(), Broken> {
        self.event::<S>(Event::Arrive { datagram }, None, author)
    }

    /// The timer with its ticket; where it is not armed, with any.
    pub fn timer<S: Joined>(
        &mut self,
        kind: S::TimerKind,
        author: &mut Author,
    ) -> Result<(), Broken> {
        match author.bench.record::<S>().timer_of(kind) {
            Some(ticket) => self.event::<S>(Event::Timer { kind, ticket }, None, author),
            None => self.late_timer::<S>(kind, author),
        }
    }

    /// The timer with any ticket, which is mostly a late one.
    pub fn late_timer<S: Joined>(
        &mut self,
        kind: S::TimerKind,
        author: &mut Author,
    ) -> Result<(), Broken> {
        let counter = author.bench.record::<S>().tickets.counter;
        let ticket = any_ticket(counter, &mut author.random);
        self.event::<S>(Event::Timer { kind, ticket }, None, author)
    }

    /// A start with a message of so many bytes.
    pub fn start(&mut self, call: Call, length: u32, author: &mut Author) -> Result<(), Broken> {
        let message = any_message(length, &mut author.random);
        let start = ClientEvent::Start(Start { call, length });
        self.event::<ClientSide>(Event::Own(start), Some(message), author)
    }

    /// The local cancel.
    pub fn cancel(&mut self, author: &mut Author) -> Result<(), Broken> {
        self.event::<ClientSide>(Event::Own(ClientEvent::Cancel), None, author)
    }

    /// A reply of so many bytes.
    pub fn reply(&mut self, length: u32, author: &mut Author) -> Result<(), Broken> {
        let message = any_message(length, &mut author.random);
        let reply = Answer::Reply { length };
        self.event::<ServerSide>(Event::Own(reply), Some(message), author)
    }

    /// A fault of any status.
    pub fn fault(&mut self, author: &mut Author) -> Result<(), Broken> {
        let status = author.random.field_u32();
        let fault = Answer::Fault { status };
        self.event::<ServerSide>(Event::Own(fault), None, author)
    }
}

/// The PDU that an event has sent, if it has sent one.
fn sent_pdu<'a>(outcome: &Outcome, pdu: &'a [u8]) -> Option<&'a [u8]> {
    let length = outcome.as_ref().ok()?.pdu_length?;
    Some(&pdu[..length])
}

/// A message that is whole is handed up, part by part, and nothing behind it.
fn ask_for_parts<S: Joined>(notice: Option<Notice>, author: &mut Author) {
    if matches!(notice, Some(Notice::Last | Notice::Dispatch)) {
        let count = author.bench.record::<S>().incoming.held().contiguous();
        for number in 0..=count {
            author.hand_up_of::<S>(number as u16);
        }
    }
}
