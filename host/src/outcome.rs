//! What an event gives back.

use crate::Refusal;
use std::fmt;

/// What came of an event: it was done, or it was refused and nothing changed.
#[must_use = "a start or reply that was refused counts as none"]
#[derive(Clone, Copy, Debug, PartialEq, Eq)]
pub enum Outcome<'a> {
    /// Done.
    Done {
        /// The PDU to send to the other side: send or copy it before the next event.
        pdu: Option<&'a [u8]>,
        /// What the stub is told.
        notice: Option<Notice>,
    },
    /// Refused: record and buffers are as they were.
    Refused(Refusal),
}

/// What the stub is told.
#[derive(Clone, Copy, Debug, PartialEq, Eq)]
pub enum Notice {
    /// The whole reply can be taken.
    Last,
    /// So many fragments of the reply can be taken already.
    Count(u32),
    /// The server answered with a fault of this status.
    Fault(u32),
    /// The server rejected the call with this status.
    Reject(u32),
    /// The call failed here. It may have been executed.
    Cause(Cause),
    /// The whole request is there: execute the call now, and only now.
    Dispatch,
    /// The client wants the running call to end. The stub may end it by a fault, or go on and reply.
    Cancel,
    /// A notice of a later library.
    Other {
        /// Its kind.
        kind: u8,
        /// Its value.
        value: u32,
    },
}

/// Why a call failed at the client.
#[derive(Clone, Copy, Debug, PartialEq, Eq)]
pub enum Cause {
    /// 1: the server did not answer; WAIT ran out six times.
    NoAnswer,
    /// 2: the server said six times that it does not have the request.
    NoCall,
    /// 3: the call was cancelled here, and no cancel_ack came before CANCEL ran out.
    NoCancelAck,
    /// A cause of a later library.
    Other(u32),
}

impl<'a> Outcome<'a> {
    /// Takes a result of the library apart. The PDU lies at the front of the PDU buffer.
    pub(crate) fn of(result: u64, pdu: &'a [u8]) -> Outcome<'a> {
        match Refusal::of(result as u8) {
            Some(refusal) => Outcome::Refused(refusal),
            None => Outcome::Done {
                pdu: pdu.get(..usize::from((result >> 16) as u16)).filter(|sent| !sent.is_empty()),
                notice: Notice::of((result >> 8) as u8, (result >> 32) as u32),
            },
        }
    }

    /// The PDU to send, if there is one.
    pub fn pdu(&self) -> Option<&'a [u8]> {
        match *self {
            Outcome::Done { pdu, .. } => pdu,
            Outcome::Refused(_) => None,
        }
    }

    /// What the stub is told, if anything.
    pub fn notice(&self) -> Option<Notice> {
        match *self {
            Outcome::Done { notice, .. } => notice,
            Outcome::Refused(_) => None,
        }
    }

    /// Why it was refused, if it was.
    pub fn refusal(&self) -> Option<Refusal> {
        match *self {
            Outcome::Done { .. } => None,
            Outcome::Refused(refusal) => Some(refusal),
        }
    }
}

impl Notice {
    fn of(kind: u8, value: u32) -> Option<Notice> {
        match kind {
            0 => None,
            1 => Some(Notice::Last),
            2 => Some(Notice::Count(value)),
            3 => Some(Notice::Fault(value)),
            4 => Some(Notice::Reject(value)),
            5 => Some(Notice::Cause(Cause::of(value))),
            6 => Some(Notice::Dispatch),
            7 => Some(Notice::Cancel),
            _ => Some(Notice::Other { kind, value }),
        }
    }
}

impl Cause {
    fn of(value: u32) -> Cause {
        match value {
            1 => Cause::NoAnswer,
            2 => Cause::NoCall,
            3 => Cause::NoCancelAck,
            _ => Cause::Other(value),
        }
    }
}

impl fmt::Display for Notice {
    fn fmt(&self, to: &mut fmt::Formatter<'_>) -> fmt::Result {
        match self {
            Notice::Last => write!(to, "last: the whole reply"),
            Notice::Count(count) => write!(to, "count {count}"),
            Notice::Fault(status) => write!(to, "fault {status:#010x}"),
            Notice::Reject(status) => write!(to, "reject {status:#010x}"),
            Notice::Cause(cause) => write!(to, "{cause}"),
            Notice::Dispatch => write!(to, "dispatch: the whole request"),
            Notice::Cancel => write!(to, "cancel: the call is to end"),
            Notice::Other { kind, value } => write!(to, "notice {kind} with {value}"),
        }
    }
}

impl fmt::Display for Cause {
    fn fmt(&self, to: &mut fmt::Formatter<'_>) -> fmt::Result {
        match self {
            Cause::NoAnswer => write!(to, "cause 1: no answer, WAIT ran out 6 times"),
            Cause::NoCall => write!(to, "cause 2: nocall 6 times"),
            Cause::NoCancelAck => write!(to, "cause 3: no cancel_ack, CANCEL ran out"),
            Cause::Other(value) => write!(to, "cause {value}"),
        }
    }
}

#[cfg(test)]
mod tests {
    use super::*;

    #[test]
    fn a_result_is_taken_apart() {
        let buffer = [7; 10];
        let told = Outcome::of(0x0000_0003_0004_0200, &buffer);
        assert_eq!(told, Outcome::Done { pdu: Some(&[7; 4]), notice: Some(Notice::Count(3)) });
        assert_eq!(Outcome::of(0, &buffer), Outcome::Done { pdu: None, notice: None });
        assert_eq!(Outcome::of(13, &buffer), Outcome::Refused(Refusal::OldCall));
        assert_eq!(Outcome::of(0x1_0000_0500, &buffer).notice(), Some(Notice::Cause(Cause::NoAnswer)));
        assert_eq!(Outcome::of(0x700, &buffer), Outcome::Done { pdu: None, notice: Some(Notice::Cancel) });
    }

    #[test]
    fn every_cause_tells_its_number() {
        for value in 1..=4_u32 {
            let notice = Outcome::of(u64::from(value) << 32 | 0x500, &[]).notice().expect("a notice");
            let told = notice.to_string();
            assert!(told.starts_with(&format!("cause {value}")), "{told}");
            assert_eq!(told.contains(':'), value < 4, "{told}");
        }
    }

    #[test]
    fn a_length_above_the_buffer_gives_no_pdu() {
        assert_eq!(Outcome::of(11 << 16, &[0; 10]).pdu(), None);
    }
}
