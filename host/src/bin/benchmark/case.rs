//! A case: one event of a machine that stands somewhere, and what is to come of it.

use crate::event::{Event, Lent};
use crate::side::Side;
use morphelai::programs::Failure;
use morphelai::{PduType, HEADER_SIZE};
use std::fmt;
use std::hint::black_box;

/// The notices by their kinds.
pub const LAST: u8 = 1;
pub const COUNT: u8 = 2;
pub const FAULT: u8 = 3;
pub const REJECT: u8 = 4;
pub const CAUSE: u8 = 5;
pub const DISPATCH: u8 = 6;
pub const CANCEL: u8 = 7;

/// What comes of an event that is done, sends nothing and tells nothing.
pub const DONE: Expected = Expected { answer: 0, notice: 0, sent: None };

/// What is to come of an event: the answer, the kind of the notice, and the PDU that is sent.
#[derive(Clone, Copy, PartialEq, Eq)]
pub struct Expected {
    pub answer: u8,
    notice: u8,
    sent: Option<PduType>,
}

/// One event on one record.
pub struct Case {
    pub name: String,
    pub expected: Expected,
    pub side: &'static Side,
    pub record: Vec<u8>,
    pub event: Event,
}

impl Expected {
    /// A refusal.
    pub fn refused(answer: u8) -> Expected {
        Expected { answer, ..DONE }
    }

    /// The same with a PDU that is sent.
    pub fn sending(self, sent: PduType) -> Expected {
        Expected { sent: Some(sent), ..self }
    }

    /// The same with a notice.
    pub fn telling(self, notice: u8) -> Expected {
        Expected { notice, ..self }
    }

    /// What a result says, with the PDU in the PDU buffer.
    fn of(result: u64, pdu: &[u8]) -> Expected {
        let length = usize::from((result >> 16) as u16);
        let sent = (length >= HEADER_SIZE).then(|| PduType::of(pdu[1]));
        Expected { answer: result as u8, notice: (result >> 8) as u8, sent }
    }
}

impl fmt::Display for Expected {
    fn fmt(&self, to: &mut fmt::Formatter<'_>) -> fmt::Result {
        write!(to, "answer {}, notice {}, ", self.answer, self.notice)?;
        match self.sent {
            Some(sent) => write!(to, "{sent} sent"),
            None => write!(to, "nothing sent"),
        }
    }
}

impl Case {
    /// Runs it once, and looks at all that comes of it.
    pub fn rehearse(&self, lent: &mut Lent) -> Result<(), Failure> {
        let result = self.event.step(self.side, &mut self.record.clone(), lent);
        let got = Expected::of(result, &lent.pdu);
        if got == self.expected {
            Ok(())
        } else {
            Err(Failure::Failed(format!("{}: {got}; expected: {}", self.name, self.expected)))
        }
    }

    /// Runs it so many times, each time on a copy of its record, and looks at the answers.
    pub fn repeat(&self, times: u64, lent: &mut Lent) -> Result<(), Failure> {
        let mut record = self.record.clone();
        let mut differences = 0;
        for _ in 0..times {
            record.copy_from_slice(black_box(&self.record));
            let result = self.event.step(self.side, black_box(&mut record), lent);
            differences |= black_box(result) as u8 ^ self.expected.answer;
        }
        if differences == 0 {
            Ok(())
        } else {
            Err(Failure::Failed(format!("{}: not always answered {}", self.name, self.expected.answer)))
        }
    }
}
