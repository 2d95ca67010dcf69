//! The row that a server's record has for a PDU that arrives.

use crate::codec::pdu::{flags1, pdu_type, Header};
use crate::records::server::{Server, State};

/// How the call number of a PDU compares with the server's. All are newer than a fresh server.
#[derive(Clone, Copy, Debug, PartialEq, Eq)]
pub enum Age {
    Older,
    Equal,
    Newer,
}

/// The rows of the table for a PDU that arrives.
#[derive(Clone, Copy, PartialEq, Eq)]
pub enum Row {
    Begin,
    Put,
    Replay,
    Working,
    Nocall,
    Fack,
    Ack,
    Cancel,
    /// The call is spent: 13.
    Spent,
    /// The PDU is a repeated one: 16.
    Repeated,
}

/// Whether the header has the idempotent bit.
fn is_idempotent(header: &Header) -> bool {
    header.flags1 & flags1::IDEMPOTENT != 0
}

impl Server {
    /// How a call number compares with the record's.
    pub fn age(&self, number: u32) -> Age {
        if self.state == State::IdleFresh || number > self.number {
            Age::Newer
        } else if number == self.number {
            Age::Equal
        } else {
            Age::Older
        }
    }

    /// An older PDU is looked at as if it had the server's number, since it is refused anyway.
    pub fn row_of(&self, header: &Header) -> Option<Row> {
        let is_newer = self.age(header.call_number) == Age::Newer;
        let has_answer = !is_newer && self.state.has_answer();
        match header.pdu_type {
            pdu_type::REQUEST if is_newer => (self.state != State::Running).then_some(Row::Begin),
            pdu_type::REQUEST => Some(self.equal_request_row(header)),
            pdu_type::PING if is_newer => Some(Row::Nocall),
            pdu_type::PING => Some(self.equal_ping_row()),
            pdu_type::FACK if has_answer => Some(Row::Fack),
            pdu_type::ACK if has_answer && !self.call.idempotent => Some(Row::Ack),
            pdu_type::CANCEL if !is_newer && self.state.answers_cancel() => Some(Row::Cancel),
            _ => None,
        }
    }

    /// The row of a request with the server's number.
    fn equal_request_row(&self, header: &Header) -> Row {
        match self.state {
            State::Collect => Row::Put,
            State::Running => Row::Working,
            State::Replying => Row::Repeated,
            State::HeldData | State::HeldFault => Row::Replay,
            State::IdleRepeatable if is_idempotent(header) => Row::Begin,
            State::IdleFresh | State::IdleSpent | State::IdleRepeatable => Row::Spent,
        }
    }

    /// The row of a ping with the server's number.
    fn equal_ping_row(&self) -> Row {
        match self.state {
            State::Running => Row::Working,
            State::Replying => Row::Repeated,
            State::HeldData | State::HeldFault => Row::Replay,
            State::Collect | State::IdleFresh | State::IdleSpent | State::IdleRepeatable => {
                Row::Nocall
            }
        }
    }
}
