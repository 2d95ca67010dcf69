//! Values at which something changes, by name.

use crate::codec::pdu::BODY_LIMIT;
use crate::records::side::Words;
use std::cmp::Ordering;

/// A value at which something changes, or none of these.
#[derive(Clone, Copy)]
pub enum Boundary {
    /// The length of a message that a start or reply brings.
    MessageLength(u32),
    /// With the answer, 0 or 1.
    TransmitLength(u32, u8),
    LastCallNumber,
    /// Whether the timer is armed, with another ticket.
    LateTimer(bool),
    /// The serial after it was raised by an event.
    Serial(&'static str, u16),
    /// An event arms a timer with the last ticket.
    LastTicket(&'static str),
    /// A fragment number put, and whether it is the last.
    PutNumber(u16, bool),
    PutLength(usize),
    ImpossibleNumber(u16),
    /// The fragment number of a fack, and how what it acknowledges compares with the count.
    Fack(u16, Ordering),
    /// The number of a fack that is sent, and the highest bit of its mask.
    FackNumber(u16),
    FackMask(u32),
}

/// The lengths that have a name.
const LENGTHS: [u32; 10] = [
    0,
    1,
    1_391,
    1_392,
    1_393,
    2_784,
    44_544,
    44_545,
    65_536,
    u32::MAX,
];

/// A length without a name of its own.
const ANOTHER_LENGTH: u32 = 2;

impl Boundary {
    pub fn name(self, words: &Words) -> String {
        format!("{} {}", words.side, self.name_of_value(words))
    }

    fn name_of_value(self, words: &Words) -> String {
        let first = words.first_event;
        let received = words.received;
        match self {
            Boundary::MessageLength(length) => format!("{first} of {}", length_name(length)),
            Boundary::TransmitLength(length, answer) => format!(
                "transmit of {}: {}",
                length_name(length),
                if answer == 0 { "sent" } else { "refused" }
            ),
            Boundary::LastCallNumber => format!("{} to call number 4294967295", words.beginning),
            Boundary::LateTimer(true) => "late timer: another ticket".into(),
            Boundary::LateTimer(false) => "late timer: not armed".into(),
            Boundary::Serial(event, 0) => format!("{event}: serial 65535, next 0"),
            Boundary::Serial(event, _) => format!("{event}: serial + 1"),
            Boundary::LastTicket(event) => format!("{event}: arms with the last ticket"),
            Boundary::PutNumber(number @ (0 | 31), is_last) => format!(
                "{received} put: number {number}, {} the last",
                if is_last { "marked" } else { "not marked" }
            ),
            Boundary::PutNumber(..) => format!("{received} put: another number"),
            Boundary::PutLength(length @ (0 | 1 | 1_391 | BODY_LIMIT)) => {
                format!("{received} put: {length} bytes")
            }
            Boundary::PutLength(_) => format!("{received} put: another length"),
            Boundary::ImpossibleNumber(number @ (1 | 31 | 32 | 65_535)) => {
                format!("{received} with the impossible number {number}")
            }
            Boundary::ImpossibleNumber(_) => format!("{received} with another impossible number"),
            Boundary::Fack(65_535, _) => "fack of none".into(),
            Boundary::Fack(_, Ordering::Less) => "fack of some".into(),
            Boundary::Fack(_, Ordering::Equal) => "fack of all".into(),
            Boundary::Fack(_, Ordering::Greater) => "fack of more".into(),
            Boundary::FackNumber(number @ (0 | 30 | 31)) => format!("fack sent: number {number}"),
            Boundary::FackNumber(_) => "fack sent: another number".into(),
            Boundary::FackMask(bit @ (1 | 30 | 31)) => format!("fack sent: mask to bit {bit}"),
            Boundary::FackMask(_) => "fack sent: mask to another bit".into(),
        }
    }

    /// One of each name that both sides have.
    fn all() -> Vec<Boundary> {
        let mut all = vec![Boundary::LastCallNumber];
        all.extend([true, false].map(Boundary::LateTimer));
        all.extend(LENGTHS.map(Boundary::MessageLength));
        all.push(Boundary::MessageLength(ANOTHER_LENGTH));
        let sent = [0, 1, 1_391, 1_392, 1_393, 2_784, 44_544, ANOTHER_LENGTH];
        all.extend(sent.map(|length| Boundary::TransmitLength(length, 0)));
        all.extend(sent.map(|length| Boundary::TransmitLength(length, 1)));
        all.extend([44_545, 65_536].map(|length| Boundary::TransmitLength(length, 1)));
        for is_last in [false, true] {
            all.extend([0, 31].map(|number| Boundary::PutNumber(number, is_last)));
        }
        all.push(Boundary::PutNumber(1, false));
        all.extend([0, 1, 1_391, BODY_LIMIT, 2].map(Boundary::PutLength));
        all.extend([1, 31, 32, 65_535, 2].map(Boundary::ImpossibleNumber));
        all.push(Boundary::Fack(65_535, Ordering::Less));
        let orderings = [Ordering::Less, Ordering::Equal, Ordering::Greater];
        all.extend(orderings.map(|ordering| Boundary::Fack(0, ordering)));
        all.extend([0, 30, 31, 1].map(Boundary::FackNumber));
        // Bit 0 is never set: the fragment behind the contiguous ones is missing.
        all.extend([1, 30, 31, 2].map(Boundary::FackMask));
        all
    }
}

/// The names of one side: which events raise the serial and which arm a timer differs.
pub fn boundary_names(words: &Words) -> Vec<String> {
    let mut all = Boundary::all();
    for event in words.raising {
        all.extend([0, 1].map(|serial| Boundary::Serial(event, serial)));
    }
    all.extend(words.arming.iter().map(|event| Boundary::LastTicket(event)));
    all.into_iter()
        .map(|boundary| boundary.name(words))
        .collect()
}

fn length_name(length: u32) -> String {
    if LENGTHS.contains(&length) {
        return format!("{length} bytes");
    }
    "another length".into()
}
