//! The server call machine: its rows.

use crate::codec::cancel;
use crate::codec::pdu::{flags1, pdu_type, put_pdu, Header, Pdu, PDU_LIMIT};
use crate::machines::effect::{Effect, Notice};
use crate::machines::machine::Machine;
use crate::machines::refusal::{Grounds, Refusal};
use crate::machines::sent::{sent_header, Sender};
use crate::machines::server_row::{Age, Row};
use crate::records::call::Call;
use crate::records::incoming::{Fragment, Incoming};
use crate::records::outgoing::{Outgoing, MESSAGE_LIMIT};
use crate::records::server::{Answer, Resend, Server, ServerSide, State};
use crate::records::timer::RETRY_LIMIT;

fn has_maybe_or_broadcast(header: &Header) -> bool {
    header.pdu_type == pdu_type::REQUEST && header.flags1 & (flags1::MAYBE | flags1::BROADCAST) != 0
}

impl Machine for ServerSide {
    fn takes(pdu_type: u8) -> bool {
        matches!(
            pdu_type,
            pdu_type::REQUEST | pdu_type::PING | pdu_type::ACK | pdu_type::CANCEL | pdu_type::FACK
        )
    }

    fn add_row_grounds(server: &Server, pdu: &Pdu, grounds: &mut Grounds) {
        let header = &pdu.header;
        let row = server.row_of(header);
        let is_old = server.age(header.call_number) == Age::Older || row == Some(Row::Spent);
        grounds.add_if(has_maybe_or_broadcast(header), Refusal::MaybeOrBroadcast);
        grounds.add_if(is_old, Refusal::OldCall);
        grounds.add_if(row.is_none(), Refusal::NoRow);
        grounds.add_if(row == Some(Row::Repeated), Refusal::AlreadyHeld);
        if header.pdu_type == pdu_type::REQUEST {
            server.add_request_grounds(header, row, grounds);
        }
    }

    fn own_grounds(server: &Server, answer: &Answer, pdu_length: usize) -> Grounds {
        let is_wrong = match answer {
            Answer::Reply { length } => *length as usize > MESSAGE_LIMIT,
            Answer::Fault { .. } => pdu_length != PDU_LIMIT,
        };
        let mut grounds = server.grounds(is_wrong, server.state == State::Running);
        let arms = matches!(answer, Answer::Fault { .. }) && !server.call.idempotent;
        server.add_arming_ground(arms, &mut grounds);
        grounds
    }

    fn arms_after_the_last(server: &Server) -> bool {
        !server.reply_is_repeatable()
    }

    fn arms_afresh(server: &Server, _: Resend) -> bool {
        server.state == State::HeldFault && server.resends != RETRY_LIMIT
    }

    fn fragment_header(server: &Server) -> Header {
        server.header_of_call(pdu_type::RESPONSE)
    }

    fn end_sending(server: &mut Server) {
        if server.reply_is_repeatable() {
            server.go_to(State::IdleRepeatable);
        } else {
            server.hold(State::HeldData);
        }
    }

    fn take_pdu(
        server: &mut Server,
        pdu: &Pdu,
        slot_buffer: &mut [u8],
        lent_pdu: &mut [u8],
    ) -> Result<Effect, Refusal> {
        match server.row_of(&pdu.header).ok_or(Refusal::NoRow)? {
            Row::Begin => {
                server.begin(&pdu.header);
                Ok(server.put(pdu, slot_buffer, lent_pdu))
            }
            Row::Put => Ok(server.put(pdu, slot_buffer, lent_pdu)),
            Row::Replay => Ok(server.replay(lent_pdu)),
            Row::Working => Ok(server.answer(pdu_type::WORKING, &pdu.header, lent_pdu)),
            Row::Nocall => Ok(server.answer(pdu_type::NOCALL, &pdu.header, lent_pdu)),
            Row::Fack => {
                server.outgoing.acknowledge(pdu.header.fragment_number);
                Ok(Effect::nothing())
            }
            Row::Ack => {
                server.go_to(State::IdleSpent);
                Ok(Effect::nothing())
            }
            Row::Cancel => {
                let number = cancel::number(pdu.body, pdu.order).ok_or(Refusal::MalformedBody)?;
                Ok(server.take_cancel(number, &pdu.header, lent_pdu))
            }
            Row::Spent => Err(Refusal::OldCall),
            Row::Repeated => Err(Refusal::AlreadyHeld),
        }
    }

    fn take_timer(server: &mut Server, _: Resend, lent_pdu: &mut [u8]) -> Effect {
        if server.resends == RETRY_LIMIT {
            server.go_to(State::IdleSpent);
            return Effect::nothing();
        }
        server.resends += 1;
        if server.state == State::HeldFault {
            server.own.resend = server.tickets.arm();
        }
        server.replay(lent_pdu)
    }

    fn take_own(server: &mut Server, answer: &Answer, lent_pdu: &mut [u8]) -> Effect {
        match answer {
            Answer::Reply { length } => {
                server.outgoing.replace(*length);
                server.go_to(State::Replying);
                Effect::nothing()
            }
            Answer::Fault { status } => server.fault(*status, lent_pdu),
        }
    }
}

impl Server {
    /// The slots of a begin are empty: nothing is held there, and no fragment contradicts them.
    fn add_request_grounds(&self, header: &Header, row: Option<Row>, grounds: &mut Grounds) {
        let fragment = Fragment::of(header);
        let is_held = row == Some(Row::Put) && self.incoming.holds(fragment.number);
        let is_newer = self.age(header.call_number) == Age::Newer;
        let is_another_call = !is_newer && Call::of_header(header) != self.call;
        let begins = is_newer || row == Some(Row::Begin);
        let contradicts_slots = !begins && self.incoming.contradicts(fragment);
        grounds.add_if(is_held, Refusal::AlreadyHeld);
        grounds.add_if(is_another_call || contradicts_slots, Refusal::Contradiction);
    }

    /// Leaving a state disarms its timer.
    fn go_to(&mut self, state: State) {
        self.state = state;
        self.own.resend = None;
    }

    fn hold(&mut self, state: State) {
        self.go_to(state);
        self.own.resend = self.tickets.arm();
    }

    /// Only a reply of one fragment lets an idempotent call run again.
    fn reply_is_repeatable(&self) -> bool {
        self.call.idempotent && self.outgoing.fragments == 1
    }

    fn header(&self, pdu_type: u8, number: u32, call: &Call) -> Header {
        let sender = Sender {
            activity: self.activity,
            boot: self.own.boot,
            serial: self.outgoing.serial,
        };
        sent_header(pdu_type, sender, number, call)
    }

    /// A response or a fault echoes the call.
    fn header_of_call(&self, pdu_type: u8) -> Header {
        self.header(pdu_type, self.number, &self.call)
    }

    /// Any other PDU echoes the one that it answers.
    fn header_of_answer(&self, pdu_type: u8, answered: &Header) -> Header {
        let call = Call::of_header(answered);
        self.header(pdu_type, answered.call_number, &call)
    }

    fn begin(&mut self, request: &Header) {
        self.number = request.call_number;
        self.call = Call::of_header(request);
        self.outgoing = Outgoing::none();
        self.incoming = Incoming::empty();
        self.resends = 0;
        self.own.cancel_number = 0;
        self.go_to(State::Collect);
    }

    fn put(&mut self, pdu: &Pdu, slot_buffer: &mut [u8], lent_pdu: &mut [u8]) -> Effect {
        self.incoming.put_pdu(pdu, slot_buffer);
        let is_complete = self.incoming.is_complete();
        if is_complete {
            self.go_to(State::Running);
        }
        let header = self.header_of_answer(pdu_type::FACK, &pdu.header);
        Effect {
            pdu_length: self.send_fack(pdu, header, lent_pdu),
            notice: is_complete.then_some(Notice::Dispatch),
        }
    }

    /// Working and nocall have no body.
    fn answer(&self, pdu_type: u8, answered: &Header, lent_pdu: &mut [u8]) -> Effect {
        let header = self.header_of_answer(pdu_type, answered);
        Effect::of_pdu(put_pdu(&header, &[], lent_pdu))
    }

    /// A call that runs accepts cancels, and notices those above the last one seen.
    fn take_cancel(&mut self, number: u32, cancel: &Header, lent_pdu: &mut [u8]) -> Effect {
        let is_running = self.state == State::Running;
        let is_noticed = is_running && number > self.own.cancel_number;
        if is_noticed {
            self.own.cancel_number = number;
        }
        let header = self.header_of_answer(pdu_type::CANCEL_ACK, cancel);
        let body = cancel::acknowledging_body(number, is_running);
        Effect {
            pdu_length: Some(put_pdu(&header, &body, lent_pdu)),
            notice: is_noticed.then_some(Notice::Cancel),
        }
    }

    fn fault(&mut self, status: u32, lent_pdu: &mut [u8]) -> Effect {
        self.own.status = status;
        if self.call.idempotent {
            self.go_to(State::IdleRepeatable);
        } else {
            self.hold(State::HeldFault);
        }
        self.send_fault(lent_pdu)
    }

    fn send_fault(&self, lent_pdu: &mut [u8]) -> Effect {
        let header = self.header_of_call(pdu_type::FAULT);
        Effect::of_pdu(put_pdu(&header, &self.own.status.to_le_bytes(), lent_pdu))
    }

    /// A fault is sent again at once; data is sent again by the transmits that follow.
    fn replay(&mut self, lent_pdu: &mut [u8]) -> Effect {
        if self.state == State::HeldFault {
            return self.send_fault(lent_pdu);
        }
        self.outgoing.rewind();
        self.go_to(State::Replying);
        Effect::nothing()
    }
}
