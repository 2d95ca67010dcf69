//! What demand 3 knows of cancels: which were asked for, and which the server notices.

use super::demand::Demand;
use super::demand_side::{cancel_number_of, check, number_of, Broken, Step};
use crate::records::client::Client;
use crate::records::server::{ServerSide, State};

impl Demand {
    /// The client is active, and stays as it is but for its cancels.
    pub(super) fn cancelled(&mut self, before: &Client, after: &Client) -> Result<(), Broken> {
        let is_active = before.state.is_active() && after.state == before.state;
        check(is_active, "a local cancel of a call that is not active")?;
        let call = self.calls.get_mut(after.number as usize);
        let call = call.ok_or("a local cancel before any start")?;
        call.cancels += 1;
        check(
            after.own.cancel_number as usize == call.cancels,
            "a local cancel has another number",
        )?;
        let is_armed_again = before.own.cancel.is_some() && before.tickets != after.tickets;
        check(!is_armed_again, "a local cancel arms a timer that is armed")
    }

    /// Only a cancel_ack of the last cancel is taken, and only where its timer is armed.
    pub(super) fn cancel_acknowledged(
        &self,
        datagram: &[u8],
        before: &Client,
    ) -> Result<(), Broken> {
        let call_number = number_of(datagram);
        let call = self.calls.get(call_number);
        let is_of_call = call_number == before.number as usize;
        let is_last = call.is_some_and(|call| call.cancels == cancel_number_of(datagram));
        check(
            is_of_call && is_last && before.own.cancel.is_some(),
            "a cancel_ack is taken that is not of the last cancel",
        )
    }

    /// Only the call that runs notices a cancel, each with a higher number than the one before, and
    /// only those that its client has sent.
    pub(super) fn cancel_noticed(
        &mut self,
        datagram: &[u8],
        step: &Step<ServerSide>,
    ) -> Result<(), Broken> {
        let after = step.bench.record::<ServerSide>();
        let runs = [step.before.state, after.state] == [State::Running; 2];
        let call_number = number_of(datagram);
        let is_last = self.last_dispatched == Some(call_number);
        check(
            runs && is_last,
            "a cancel is noticed of a call that does not run",
        )?;
        let number = cancel_number_of(datagram);
        check(
            number > self.last_noticed,
            "a cancel is noticed that is not above the last",
        )?;
        self.last_noticed = number;
        check(
            number <= self.calls[call_number].cancels,
            "a cancel is noticed that was not sent",
        )
    }
}
