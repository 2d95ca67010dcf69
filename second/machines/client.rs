//! The client call machine: its rows.

use crate::codec::pdu::{flags1, pdu_type, put_pdu, Header, Pdu, PDU_LIMIT};
use crate::codec::{body, cancel};
use crate::machines::effect::{Effect, Notice};
use crate::machines::machine::Machine;
use crate::machines::refusal::{Grounds, Refusal};
use crate::machines::sent::{sent_header, Sender};
use crate::records::client::{Client, ClientEvent, ClientSide, Start, State, TimerKind};
use crate::records::incoming::{Fragment, Incoming};
use crate::records::outgoing::{Outgoing, MESSAGE_LIMIT};
use crate::records::timer::RETRY_LIMIT;

/// Local causes of a failure.
const NO_ANSWER: u8 = 1;
const NO_CALL: u8 = 2;
const CANCELLED: u8 = 3;

/// The rows of the table for a PDU that arrives.
#[derive(Clone, Copy)]
enum Row {
    Response,
    Failure,
    Working,
    Nocall,
    Fack,
    CancelAck,
}

/// The row that a record has for a PDU.
fn row_of(client: &Client, pdu: &Pdu) -> Option<Row> {
    let state = client.state;
    match pdu.header.pdu_type {
        pdu_type::RESPONSE if state.is_active() => Some(Row::Response),
        pdu_type::FAULT | pdu_type::REJECT if state.is_active() => Some(Row::Failure),
        pdu_type::FACK if state.is_active() => Some(Row::Fack),
        pdu_type::WORKING if state == State::Dispatched => Some(Row::Working),
        pdu_type::NOCALL if state == State::Dispatched => Some(Row::Nocall),
        pdu_type::CANCEL_ACK if client.is_cancel_acknowledged(pdu) => Some(Row::CancelAck),
        _ => None,
    }
}

impl Machine for ClientSide {
    fn takes(pdu_type: u8) -> bool {
        matches!(
            pdu_type,
            pdu_type::RESPONSE
                | pdu_type::FAULT
                | pdu_type::WORKING
                | pdu_type::NOCALL
                | pdu_type::REJECT
                | pdu_type::FACK
                | pdu_type::CANCEL_ACK
        )
    }

    fn add_row_grounds(client: &Client, pdu: &Pdu, grounds: &mut Grounds) {
        let header = &pdu.header;
        let is_old = client.state == State::Queued || header.call_number != client.number;
        let row = row_of(client, pdu);
        grounds.add_if(is_old, Refusal::OldCall);
        grounds.add_if(row.is_none(), Refusal::NoRow);
        match header.pdu_type {
            pdu_type::RESPONSE => client.add_response_grounds(pdu, grounds),
            pdu_type::WORKING => client.add_arming_ground(true, grounds),
            _ => {}
        }
    }

    fn own_grounds(client: &Client, event: &ClientEvent, pdu_length: usize) -> Grounds {
        match event {
            ClientEvent::Start(start) => client.start_grounds(start),
            ClientEvent::Cancel => client.cancel_grounds(pdu_length),
        }
    }

    fn arms_after_the_last(_: &Client) -> bool {
        true
    }

    fn arms_afresh(client: &Client, kind: TimerKind) -> bool {
        kind == TimerKind::Wait && client.own.waits != RETRY_LIMIT
    }

    fn fragment_header(client: &Client) -> Header {
        client.header(pdu_type::REQUEST)
    }

    fn end_sending(client: &mut Client) {
        client.go_to(State::Dispatched);
        client.own.wait = client.tickets.arm();
    }

    fn take_pdu(
        client: &mut Client,
        pdu: &Pdu,
        slot_buffer: &mut [u8],
        lent_pdu: &mut [u8],
    ) -> Result<Effect, Refusal> {
        match row_of(client, pdu).ok_or(Refusal::NoRow)? {
            Row::Response => Ok(client.take_response(pdu, slot_buffer, lent_pdu)),
            Row::Failure => {
                let status = body::status(pdu.body, pdu.order).ok_or(Refusal::MalformedBody)?;
                Ok(client.take_failure(pdu.header.pdu_type, status))
            }
            Row::Working => Ok(client.take_working()),
            Row::Nocall => Ok(client.take_nocall()),
            Row::Fack => {
                client.outgoing.acknowledge(pdu.header.fragment_number);
                Ok(Effect::nothing())
            }
            Row::CancelAck => {
                client.own.cancel = None;
                Ok(Effect::nothing())
            }
        }
    }

    fn take_timer(client: &mut Client, kind: TimerKind, lent_pdu: &mut [u8]) -> Effect {
        match kind {
            TimerKind::Wait => client.wait_timer(lent_pdu),
            TimerKind::Ack => client.ack_timer(lent_pdu),
            TimerKind::Cancel => client.fail(Notice::Cause(CANCELLED)),
        }
    }

    fn take_own(client: &mut Client, event: &ClientEvent, lent_pdu: &mut [u8]) -> Effect {
        match event {
            ClientEvent::Start(start) => client.start(start),
            ClientEvent::Cancel => client.cancel(lent_pdu),
        }
    }
}

impl Client {
    fn start_grounds(&self, start: &Start) -> Grounds {
        let is_over = start.length as usize > MESSAGE_LIMIT;
        let mut grounds = self.grounds(is_over, self.state.may_start());
        let is_last_number = self.state != State::Queued && self.number == u32::MAX;
        grounds.add_if(is_last_number, Refusal::NoCallNumber);
        grounds
    }

    /// A timer that is armed already is not armed again.
    fn cancel_grounds(&self, pdu_length: usize) -> Grounds {
        let has_row = self.state.is_active() && self.own.cancel_number != u32::MAX;
        let mut grounds = self.grounds(pdu_length != PDU_LIMIT, has_row);
        self.add_arming_ground(self.own.cancel.is_none(), &mut grounds);
        grounds
    }

    /// Whether a cancel_ack has the number of the last cancel, and its timer is armed.
    fn is_cancel_acknowledged(&self, pdu: &Pdu) -> bool {
        let number = cancel::acknowledged_number(pdu.body, pdu.order);
        self.own.cancel.is_some() && number == Some(self.own.cancel_number)
    }

    fn add_response_grounds(&self, pdu: &Pdu, grounds: &mut Grounds) {
        let fragment = Fragment::of(&pdu.header);
        let mut after = self.incoming.clone();
        after.put(fragment, pdu.body.len() as u16);
        let arms = !(after.is_complete() && self.call.idempotent);
        grounds.add_if(self.incoming.holds(fragment.number), Refusal::AlreadyHeld);
        grounds.add_if(self.incoming.contradicts(fragment), Refusal::Contradiction);
        self.add_arming_ground(arms, grounds);
    }

    /// Leaving a state disarms its timer, and leaving the active ones that of the cancel.
    fn go_to(&mut self, state: State) {
        self.state = state;
        self.own.wait = None;
        self.own.ack = None;
        if !state.is_active() {
            self.own.cancel = None;
        }
    }

    fn fail(&mut self, notice: Notice) -> Effect {
        self.go_to(State::Fault);
        Effect::of_notice(notice)
    }

    fn header(&self, pdu_type: u8) -> Header {
        let sender = Sender {
            activity: self.activity,
            boot: 0,
            serial: self.outgoing.serial,
        };
        let mut header = sent_header(pdu_type, sender, self.number, &self.call);
        if self.call.idempotent {
            header.flags1 = flags1::IDEMPOTENT;
        }
        header
    }

    fn start(&mut self, start: &Start) -> Effect {
        self.number = match self.state {
            State::Queued => 0,
            _ => self.number + 1,
        };
        self.call = start.call.clone();
        self.outgoing = Outgoing::of_length(start.length);
        self.incoming = Incoming::empty();
        self.own.waits = 0;
        self.own.cancel_number = 0;
        self.resends = 0;
        self.go_to(State::SendFrags);
        Effect::nothing()
    }

    /// The local cancel. The timer keeps its ticket where it is armed.
    fn cancel(&mut self, lent_pdu: &mut [u8]) -> Effect {
        self.own.cancel_number += 1;
        if self.own.cancel.is_none() {
            self.own.cancel = self.tickets.arm();
        }
        let body = cancel::body(self.own.cancel_number);
        Effect::of_pdu(put_pdu(&self.header(pdu_type::CANCEL), &body, lent_pdu))
    }

    fn take_response(&mut self, pdu: &Pdu, slot_buffer: &mut [u8], lent_pdu: &mut [u8]) -> Effect {
        self.incoming.put_pdu(pdu, slot_buffer);
        self.own.waits = 0;
        let notice = if self.incoming.is_complete() {
            self.complete();
            Notice::Last
        } else {
            self.go_to(State::ReceiveFrags);
            self.own.wait = self.tickets.arm();
            Notice::Count(self.incoming.held().contiguous())
        };
        Effect {
            pdu_length: self.send_fack(pdu, self.header(pdu_type::FACK), lent_pdu),
            notice: Some(notice),
        }
    }

    fn complete(&mut self) {
        if self.call.idempotent {
            self.go_to(State::Complete);
        } else {
            self.go_to(State::AckPending);
            self.own.ack = self.tickets.arm();
        }
    }

    fn take_failure(&mut self, pdu_type: u8, status: u32) -> Effect {
        self.fail(match pdu_type {
            pdu_type::FAULT => Notice::Fault(status),
            _ => Notice::Reject(status),
        })
    }

    fn take_working(&mut self) -> Effect {
        self.own.waits = 0;
        self.own.wait = self.tickets.arm();
        Effect::nothing()
    }

    fn take_nocall(&mut self) -> Effect {
        if self.resends == RETRY_LIMIT {
            return self.fail(Notice::Cause(NO_CALL));
        }
        self.resends += 1;
        self.outgoing.rewind();
        self.go_to(State::SendFrags);
        Effect::nothing()
    }

    fn wait_timer(&mut self, lent_pdu: &mut [u8]) -> Effect {
        if self.own.waits == RETRY_LIMIT {
            return self.fail(Notice::Cause(NO_ANSWER));
        }
        self.own.waits += 1;
        self.outgoing.raise_serial();
        self.own.wait = self.tickets.arm();
        Effect::of_pdu(put_pdu(&self.header(pdu_type::PING), &[], lent_pdu))
    }

    fn ack_timer(&mut self, lent_pdu: &mut [u8]) -> Effect {
        self.go_to(State::Complete);
        Effect::of_pdu(put_pdu(&self.header(pdu_type::ACK), &[], lent_pdu))
    }
}
