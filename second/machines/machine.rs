//! The machine of either side: its events, each judged first and carried out afterwards.

use crate::codec::body;
use crate::codec::fack;
use crate::codec::pdu::{pdu_type, put_pdu, read, Header, Pdu, PDU_LIMIT};
use crate::machines::effect::Effect;
use crate::machines::event::Event;
use crate::machines::refusal::{Grounds, Refusal};
use crate::records::incoming::{has_impossible_fragment, SLOT_BUFFER_LENGTH};
use crate::records::record::Record;
use crate::records::side::Side;

/// What the machine of one side does otherwise than that of the other.
pub trait Machine: Side {
    /// Whether the side takes PDUs of the type at all.
    fn takes(pdu_type: u8) -> bool;

    /// The grounds that the rows give for a PDU.
    fn add_row_grounds(record: &Record<Self>, pdu: &Pdu, grounds: &mut Grounds);

    /// The grounds of an event that only this side has.
    fn own_grounds(record: &Record<Self>, event: &Self::OwnEvent, pdu_length: usize) -> Grounds;

    /// Whether a timer is armed after the last fragment.
    fn arms_after_the_last(record: &Record<Self>) -> bool;

    /// Whether a timer that has run out is armed afresh.
    fn arms_afresh(record: &Record<Self>, kind: Self::TimerKind) -> bool;

    /// The header of the next fragment, but for what tells its place.
    fn fragment_header(record: &Record<Self>) -> Header;

    /// The last fragment has been sent.
    fn end_sending(record: &mut Record<Self>);

    /// Carries out the row of a PDU.
    fn take_pdu(
        record: &mut Record<Self>,
        pdu: &Pdu,
        slot_buffer: &mut [u8],
        lent_pdu: &mut [u8],
    ) -> Result<Effect, Refusal>;

    /// A timer has run out.
    fn take_timer(record: &mut Record<Self>, kind: Self::TimerKind, lent_pdu: &mut [u8]) -> Effect;

    /// Carries out an event that only this side has.
    fn take_own(record: &mut Record<Self>, event: &Self::OwnEvent, lent_pdu: &mut [u8]) -> Effect;
}

/// The grounds of each event. Each is looked for on its own, also where a lower one holds.
impl<S: Machine> Record<S> {
    /// The grounds that may hold at every event.
    pub fn grounds(&self, is_lent_wrong: bool, has_row: bool) -> Grounds {
        let mut grounds = Grounds::default();
        grounds.add_if(is_lent_wrong, Refusal::LentBuffer);
        grounds.add_if(!self.is_sound(), Refusal::BrokenRecord);
        grounds.add_if(!has_row, Refusal::NoRow);
        grounds
    }

    /// The ground of an event that arms a timer.
    pub fn add_arming_ground(&self, arms: bool, grounds: &mut Grounds) {
        grounds.add_if(arms && self.tickets.are_used_up(), Refusal::NoTicket);
    }

    /// The grounds of a transmit of a message of so many bytes.
    pub fn transmit_grounds(&self, message_length: usize, pdu_length: usize) -> Grounds {
        let has_row = self.state == S::SENDING;
        let is_wrong = self.outgoing.is_lent_wrong(message_length, has_row);
        let mut grounds = self.grounds(is_wrong || pdu_length != PDU_LIMIT, has_row);
        let arms = self.outgoing.next_is_the_last() && S::arms_after_the_last(self);
        self.add_arming_ground(arms, &mut grounds);
        grounds
    }

    /// The grounds of a timer event with a ticket.
    pub fn timer_grounds(&self, kind: S::TimerKind, ticket: u64, pdu_length: usize) -> Grounds {
        let mut grounds = self.grounds(pdu_length != PDU_LIMIT, S::names(self.state, kind));
        grounds.add_if(self.timer_of(kind) != Some(ticket), Refusal::LateTimer);
        self.add_arming_ground(S::arms_afresh(self, kind), &mut grounds);
        grounds
    }

    /// The grounds of a datagram that arrives.
    pub fn arrive_grounds(
        &self,
        datagram: &[u8],
        slot_buffer_length: usize,
        pdu_length: usize,
    ) -> Grounds {
        let is_wrong = slot_buffer_length != SLOT_BUFFER_LENGTH || pdu_length != PDU_LIMIT;
        // Which row there is, the PDU says.
        let mut grounds = self.grounds(is_wrong, true);
        match read(datagram) {
            Ok(pdu) => self.add_pdu_grounds(&pdu, &mut grounds),
            Err(refusal) => grounds.add(refusal),
        }
        grounds
    }

    /// The grounds that a PDU gives which can be read.
    fn add_pdu_grounds(&self, pdu: &Pdu, grounds: &mut Grounds) {
        let header = &pdu.header;
        let is_fack = header.pdu_type == pdu_type::FACK;
        let contradicts = is_fack && self.outgoing.contradicts(header.fragment_number);
        grounds.add_if(header.activity != self.activity, Refusal::OtherActivity);
        grounds.add_if(!S::takes(header.pdu_type), Refusal::TypeNotForThisSide);
        grounds.add_if(has_impossible_fragment(header), Refusal::FragmentNumber);
        grounds.add_if(body::is_malformed(pdu), Refusal::MalformedBody);
        grounds.add_if(contradicts, Refusal::Contradiction);
        S::add_row_grounds(self, pdu, grounds);
    }
}

/// The events. Nothing is changed before all grounds are judged.
impl<S: Machine> Record<S> {
    /// An event for which the slot buffer and the PDU buffer are lent.
    pub fn take(
        &mut self,
        event: &Event<S>,
        slot_buffer: &mut [u8],
        lent_pdu: &mut [u8],
    ) -> Result<Effect, Refusal> {
        let pdu_length = lent_pdu.len();
        match event {
            Event::Transmit { message } => self.transmit(message, lent_pdu),
            Event::Arrive { datagram } => {
                self.arrive_grounds(datagram, slot_buffer.len(), pdu_length)
                    .decide()?;
                S::take_pdu(self, &read(datagram)?, slot_buffer, lent_pdu)
            }
            Event::Timer { kind, ticket } => {
                self.timer_grounds(*kind, *ticket, pdu_length).decide()?;
                Ok(S::take_timer(self, *kind, lent_pdu))
            }
            Event::Own(event) => {
                S::own_grounds(self, event, pdu_length).decide()?;
                Ok(S::take_own(self, event, lent_pdu))
            }
        }
    }

    /// Sends the next fragment of the message.
    fn transmit(&mut self, message: &[u8], lent_pdu: &mut [u8]) -> Result<Effect, Refusal> {
        self.transmit_grounds(message.len(), lent_pdu.len())
            .decide()?;
        let is_last = self.outgoing.next_is_the_last();
        self.outgoing.raise_serial();
        let mut header = S::fragment_header(self);
        header.flags1 |= self.outgoing.next_flags();
        header.fragment_number = u16::from(self.outgoing.sent);
        let pdu_length = put_pdu(&header, self.outgoing.next_fragment(message), lent_pdu);
        self.outgoing.sent += 1;
        if is_last {
            S::end_sending(self);
        }
        Ok(Effect::of_pdu(pdu_length))
    }

    /// The part of the slot buffer that a fragment lies in. It is empty for a number that is not
    /// one of the contiguous ones, for a broken record and for a buffer of the wrong length.
    pub fn hand_up<'a>(&self, number: u8, slot_buffer: &'a [u8]) -> &'a [u8] {
        if !self.is_sound() || slot_buffer.len() != SLOT_BUFFER_LENGTH {
            return &[];
        }
        self.incoming.part(number, slot_buffer)
    }

    /// Sends the fack of a PDU, if one is due. It describes the record as it is now.
    pub fn send_fack(&self, put: &Pdu, mut header: Header, lent_pdu: &mut [u8]) -> Option<usize> {
        let held = self.incoming.held();
        header.fragment_number = held.number();
        let body = fack::body(put.header.serial, held.mask());
        fack::is_due(put.header.flags1).then(|| put_pdu(&header, &body, lent_pdu))
    }
}
