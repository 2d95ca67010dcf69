//! Two implementations side by side: each function is called of both, with memory of its own.

use super::difference::{outcomes, part_lengths};
use super::findings::Findings;
use super::library::Library;
use super::memory::{Lengths, Memory, RIGHT};
use super::post::{Benched, Post, Posts};
use super::words::{bytes_told, told};
use crate::codec::pdu::Uuid;
use crate::coverage::codec::{count_read, count_write};
use crate::coverage::coverage::Coverage;
use crate::coverage::step::{Counted, Step};
use crate::door;
use crate::door::invocation::Invocation;
use crate::door::outcome::outcome;
use crate::door::places::RecordBytes;
use crate::door::step::{invocation_of, invoke, part};
use crate::machines::effect::Effect;
use crate::machines::event::Event;
use crate::machines::refusal::{answer, Refusal};
use crate::records::client::Client;
use crate::records::record::Record;
use crate::records::server::Server;

/// What an event gives, or why it is refused.
pub type Outcome = Result<Effect, Refusal>;

pub struct Bench {
    posts: Posts,
    library: Box<dyn Library>,
    /// How much of each buffer is lent.
    pub lent: Lengths,
    pub coverage: Coverage,
    pub findings: Findings,
}

impl Bench {
    pub fn new(library: Box<dyn Library>) -> Bench {
        let activity: Uuid = [0; 16];
        Bench {
            posts: Posts {
                client: Post::new(Client::fresh(activity, 0)),
                server: Post::new(Server::fresh(activity, 0, 0)),
            },
            library,
            lent: RIGHT,
            coverage: Coverage::new(),
            findings: Findings::default(),
        }
    }

    pub fn record<S: Benched>(&self) -> &Record<S> {
        &S::post(&self.posts).record
    }

    pub fn memory<S: Benched>(&self) -> &Memory {
        &S::post(&self.posts).own
    }

    /// The next event meets a record of these bytes. Where they are not readable, what was the
    /// record before is left.
    pub fn set_bytes<S: Benched>(&mut self, bytes: &RecordBytes) {
        let post = S::post_mut(&mut self.posts);
        post.set_bytes(bytes);
        post.follow_bytes();
    }

    /// A function is called of both. Where the bytes are readable behind it, the record is theirs.
    pub fn invoke<S: Benched>(&mut self, invocation: &Invocation<S>) -> Outcome {
        let post = S::post_mut(&mut self.posts);
        let before = post.bytes();
        post.own.clear_sent();
        post.other.clear_sent();
        let result = invoke(invocation, post.own.lent(self.lent));
        let own = outcome(&result);
        let lent = post.other.lent(self.lent);
        let other = S::call(self.library.as_mut(), invocation, lent);
        let lengths = self.lent;
        let what = || told(invocation, lengths);
        let difference = post.difference(what, &before, outcomes(own, other));
        self.findings.add(difference);
        post.follow_bytes();
        result
    }

    /// A record becomes fresh, and its slots are as they are before anything is put.
    pub fn fresh<S: Benched>(&mut self, activity: &[u8], argument: S::FreshArgument, tickets: u64) {
        S::post_mut(&mut self.posts).clear_slots();
        let result = self.invoke::<S>(&Invocation::Fresh {
            activity,
            argument,
            tickets,
        });
        let answer = answer(&result);
        let name = format_args!("{}-fresh-answer-{answer}", S::WORDS.side);
        self.coverage.counts.add(name);
    }

    /// An event of a record that is readable; what it reaches is counted.
    pub fn event<S: Benched + Counted>(&mut self, event: &Event<S>) -> Outcome {
        let before = self.record::<S>().clone();
        let result = self.invoke(&invocation_of(event));
        let post = S::post(&self.posts);
        let step = Step {
            event,
            before: &before,
            after: &post.record,
            answer: answer(&result),
            effect: result.clone().unwrap_or_default(),
            pdu: post.own.pdu.whole(),
            lent: self.lent,
        };
        self.coverage.count_event(&step);
        result
    }

    /// The length of a part that a side hands up.
    pub fn part<S: Benched>(&mut self, number: u16) -> usize {
        let lengths = self.lent;
        let post = S::post_mut(&mut self.posts);
        let before = post.bytes();
        let lent = post.own.lent(lengths);
        let own = part::<S>(number, lent.record, lent.slots);
        let lent = post.other.lent(lengths);
        let other = S::ask_part(self.library.as_mut(), number, lent.record, lent.slots);
        let what = || format!("{} part {number}, lent {lengths}", S::WORDS.side);
        let difference = post.difference(what, &before, part_lengths(own, other));
        self.findings.add(difference);
        own as usize
    }

    /// The same of a record that is readable; what it reaches is counted.
    pub fn hand_up<S: Benched + Counted>(&mut self, number: u16) -> usize {
        let length = self.part::<S>(number);
        let record = &S::post(&self.posts).record;
        self.coverage.count_hand_up(number, record, self.lent);
        length
    }

    /// A datagram is read into the header buffer, which is the client's.
    pub fn read(&mut self, datagram: &[u8]) -> Outcome {
        let post = &mut self.posts.client;
        post.own.clear_header();
        post.other.clear_header();
        let length = self.lent.header;
        let result = door::pdu::read(datagram, post.own.header.front(length));
        let other = self.library.read(datagram, post.other.header.front(length));
        let what = || format!("read {} into {length} bytes", bytes_told(datagram));
        let outcomes = outcomes(outcome(&result), other);
        let difference = post.difference(what, &[], outcomes);
        self.findings.add(difference);
        count_read(datagram, length, answer(&result), &mut self.coverage.counts);
        result
    }

    /// A PDU is written into the PDU buffer, which is the client's.
    pub fn write(&mut self, header: &[u8], body: &[u8]) -> Outcome {
        let post = &mut self.posts.client;
        post.own.clear_sent();
        post.other.clear_sent();
        let length = self.lent.pdu;
        let result = door::pdu::write(header, body, post.own.pdu.front(length));
        let other = (self.library).write(header, body, post.other.pdu.front(length));
        let what = || {
            let (header, body) = (bytes_told(header), bytes_told(body));
            format!("write header {header}, body {body} into {length} bytes")
        };
        let outcomes = outcomes(outcome(&result), other);
        let difference = post.difference(what, &[], outcomes);
        self.findings.add(difference);
        let counts = &mut self.coverage.counts;
        count_write(header, body.len(), length, answer(&result), counts);
        result
    }
}
