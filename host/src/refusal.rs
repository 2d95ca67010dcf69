//! The answers other than 0, each with its name and meaning.

use std::fmt;

/// Why the library refused. Nothing was changed, sent or told.
#[derive(Clone, Copy, Debug, PartialEq, Eq, Hash)]
pub enum Refusal {
    /// 1: lent memory of the wrong length, or a message that is too long or not as long as its start or reply said.
    Length,
    /// 2: the record is not one that the library gave back.
    Record,
    /// 3: a datagram shorter than a header.
    Short,
    /// 4: not version 4 of the protocol.
    Version,
    /// 5: no such PDU type.
    Type,
    /// 6: a data representation that is not read.
    Representation,
    /// 7: authentication, which is not there.
    Authentication,
    /// 8: the body is too long, or not as long as the header says.
    Body,
    /// 9: another activity.
    Activity,
    /// 10: a PDU for the other side.
    Side,
    /// 11: a maybe or broadcast call, which is not there.
    Semantics,
    /// 12: a fragment number that cannot be.
    Fragment,
    /// 13: of a call that is over, or not of this client.
    OldCall,
    /// 14: a fault, reject, fack, cancel or cancel_ack whose body cannot be read.
    Malformed,
    /// 15: the state has nothing to do for this event.
    NoRow,
    /// 16: a fragment that is held already, or a request or ping repeated while the reply is sent.
    Repeated,
    /// 17: it contradicts what is known of the call.
    Contradiction,
    /// 18: a late timer: its ticket is not armed.
    LateTimer,
    /// 19: the call numbers of the activity are used up.
    NumbersUsedUp,
    /// 20: the tickets of the record are used up.
    TicketsUsedUp,
    /// A number that this wrapper does not know: the library is a later one.
    Other(u8),
}

/// Every refusal that has a number of its own, in order: the first is 1.
pub const REFUSALS: [Refusal; 20] = [
    Refusal::Length,
    Refusal::Record,
    Refusal::Short,
    Refusal::Version,
    Refusal::Type,
    Refusal::Representation,
    Refusal::Authentication,
    Refusal::Body,
    Refusal::Activity,
    Refusal::Side,
    Refusal::Semantics,
    Refusal::Fragment,
    Refusal::OldCall,
    Refusal::Malformed,
    Refusal::NoRow,
    Refusal::Repeated,
    Refusal::Contradiction,
    Refusal::LateTimer,
    Refusal::NumbersUsedUp,
    Refusal::TicketsUsedUp,
];

impl Refusal {
    /// The refusal of an answer; none for 0, which is done.
    pub fn of(answer: u8) -> Option<Refusal> {
        match answer {
            0 => None,
            _ => Some(*REFUSALS.get(usize::from(answer) - 1).unwrap_or(&Refusal::Other(answer))),
        }
    }

    /// Its number.
    pub fn number(self) -> u8 {
        match self {
            Refusal::Other(number) => number,
            listed => REFUSALS.iter().take_while(|&&refusal| refusal != listed).count() as u8 + 1,
        }
    }

    /// What it means, in a few words.
    pub fn meaning(self) -> &'static str {
        match self {
            Refusal::Length => "memory or message of the wrong length",
            Refusal::Record => "not a record of the library",
            Refusal::Short => "shorter than a header",
            Refusal::Version => "another version of the protocol",
            Refusal::Type => "no such PDU type",
            Refusal::Representation => "another data representation",
            Refusal::Authentication => "authentication is not there",
            Refusal::Body => "not as long as its header says",
            Refusal::Activity => "another activity",
            Refusal::Side => "for the other side",
            Refusal::Semantics => "maybe or broadcast call",
            Refusal::Fragment => "a fragment number that cannot be",
            Refusal::OldCall => "old call",
            Refusal::Malformed => "malformed body",
            Refusal::NoRow => "nothing to do in this state",
            Refusal::Repeated => "repeated",
            Refusal::Contradiction => "contradicts what is held",
            Refusal::LateTimer => "late timer",
            Refusal::NumbersUsedUp => "call numbers used up",
            Refusal::TicketsUsedUp => "tickets used up",
            Refusal::Other(_) => "an answer of a later library",
        }
    }
}

impl fmt::Display for Refusal {
    fn fmt(&self, to: &mut fmt::Formatter<'_>) -> fmt::Result {
        write!(to, "{} ({})", self.number(), self.meaning())
    }
}

#[cfg(test)]
mod tests {
    use super::*;

    #[test]
    fn every_answer_has_its_refusal_and_back() {
        assert_eq!(Refusal::of(0), None);
        for answer in 1..=255 {
            assert_eq!(Refusal::of(answer).map(Refusal::number), Some(answer));
        }
        assert_eq!(Refusal::of(1), Some(Refusal::Length));
        assert_eq!(Refusal::of(18), Some(Refusal::LateTimer));
        assert_eq!(Refusal::of(20), Some(Refusal::TicketsUsedUp));
        assert_eq!(Refusal::of(21), Some(Refusal::Other(21)));
    }
}
