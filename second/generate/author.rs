//! Makes events and has them take place on the bench, so that it knows the records that the next
//! event meets.

use crate::bench::bench::{Bench, Outcome};
use crate::bench::memory::RIGHT;
use crate::bench::message::LastMessage;
use crate::bench::post::Benched;
use crate::codec::pdu::{offset, written_header};
use crate::coverage::step::Counted;
use crate::door::record_bytes::encode;
use crate::generate::bytes::meaningless::Meaningless;
use crate::generate::random::Random;
use crate::machines::event::Event;
use crate::records::record::Record;
use std::marker::PhantomData;

const WRONG_PDU_LENGTHS: [usize; 5] = [0, 79, 1_471, 1_473, 2_048];
const WRONG_SLOT_BUFFER_LENGTHS: [usize; 5] = [0, 1_392, 44_543, 44_545, 45_936];

/// The author of events of the kind given. What an author of one kind alone does stands with that
/// kind.
pub struct Author<Kind> {
    pub random: Random,
    pub bench: Bench,
    messages: LastMessage,
    /// How many events are still to be made.
    events_left: u64,
    kind: PhantomData<Kind>,
}

impl<Kind> Author<Kind> {
    pub fn new(bench: Bench, seed: u64, events: u64) -> Author<Kind> {
        Author {
            random: Random::new(seed),
            bench,
            messages: LastMessage::default(),
            events_left: events,
            kind: PhantomData,
        }
    }

    /// Gives the bench back for the next author.
    pub fn into_bench(self) -> Bench {
        self.bench
    }

    pub fn has_finished(&self) -> bool {
        self.events_left == 0
    }

    /// One event more, unless there are enough.
    pub fn may_go_on(&mut self) -> bool {
        let may = !self.has_finished();
        self.events_left -= u64::from(may);
        may
    }

    /// The next event meets the record. Every second time, what means nothing in its bytes is
    /// anything.
    pub fn set_record_of<S: Meaningless + Benched>(&mut self, record: Record<S>) {
        let mut bytes = encode(&record);
        if self.random.percent(50) {
            S::scramble(&mut bytes, &mut self.random);
        }
        self.bench.set_bytes::<S>(&bytes);
    }

    /// The next event meets a fresh record.
    pub fn fresh_of<S: Benched>(
        &mut self,
        activity: &[u8],
        argument: S::FreshArgument,
        tickets: u64,
    ) {
        if self.may_go_on() {
            self.bench.fresh::<S>(activity, argument, tickets);
        }
    }

    /// What an event of a side gives, if it took place.
    pub fn event_of<S: Benched + Counted>(&mut self, event: &Event<S>) -> Option<Outcome> {
        self.may_go_on().then(|| self.bench.event(event))
    }

    /// A transmit of the message that the length and the seed make.
    pub fn transmit_of<S: Benched + Counted>(&mut self, length: u32, seed: u8) -> Option<Outcome> {
        if !self.may_go_on() {
            return None;
        }
        let message = self.messages.of(length as usize, seed);
        Some(self.bench.event::<S>(&Event::Transmit { message }))
    }

    pub fn hand_up_of<S: Benched + Counted>(&mut self, number: u16) {
        if self.may_go_on() {
            self.bench.hand_up::<S>(number);
        }
    }

    pub fn lend_wrong_pdu(&mut self) {
        self.bench.lent.pdu = self.random.pick(&WRONG_PDU_LENGTHS);
    }

    fn lend_wrong_slots(&mut self) {
        self.bench.lent.slots = self.random.pick(&WRONG_SLOT_BUFFER_LENGTHS);
    }

    /// Lends one of the buffers, or both, with a wrong length.
    pub fn lend_wrong(&mut self) {
        match self.random.between(0, 4) {
            0..=1 => self.lend_wrong_pdu(),
            2..=3 => self.lend_wrong_slots(),
            _ => {
                self.lend_wrong_pdu();
                self.lend_wrong_slots();
            }
        }
    }

    pub fn lend_right(&mut self) {
        self.bench.lent = RIGHT;
    }

    /// A write, which has nothing to do with the records but with what is lent.
    pub fn write(&mut self) {
        if !self.may_go_on() {
            return;
        }
        let defects = self.random.between(0, 7);
        let mut header = written_header(&self.random.header(2), 0);
        if defects & 1 != 0 {
            header[offset::TYPE] = 11;
        }
        header[offset::AUTHENTICATION] = u8::from(defects & 2 != 0);
        let body_length = if defects & 4 != 0 { 1_393 } else { 3 };
        let body = self.messages.of(body_length, 0);
        // What it gives is compared; nothing here goes on from it.
        let _ = self.bench.write(&header, body);
    }
}
