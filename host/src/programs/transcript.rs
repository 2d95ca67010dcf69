//! The transcript: one line for each thing that happens, in columns.

use super::say;
use crate::header::{FRAGMENT, IDEMPOTENT, LAST_FRAGMENT, NO_FACK};
use crate::{Header, Outcome, PduType, HEADER_SIZE};
use std::time::Instant;

const TITLE: &str =
    "  time ms  side        activity  event     type       call  fragment  flags           serial   body  told";

/// A transcript of one side, printed where it is on.
pub struct Transcript {
    side: &'static str,
    on: bool,
    began: Instant,
}

impl Transcript {
    /// The transcript of a side.
    pub fn new(side: &'static str, on: bool) -> Transcript {
        Transcript { side, on, began: Instant::now() }
    }

    /// The line that names the columns.
    pub fn title(&self) {
        if self.on {
            say(TITLE);
        }
    }

    /// A PDU, what became of it, and what came of it.
    pub fn pdu(&self, event: &str, datagram: &[u8], told: &str) {
        if self.on {
            self.line(&pdu_columns(event, datagram, told));
        }
    }

    /// A PDU that came, with what the library made of it.
    pub fn received(&self, datagram: &[u8], outcome: &Outcome<'_>) {
        if self.on {
            self.line(&pdu_columns("received", datagram, &told(outcome)));
        }
    }

    /// A start or an answer with a message of so many bytes, or without one.
    pub fn message(&self, activity: &[u8; 16], number: u32, event: &str, bytes: Option<usize>, told: &str) {
        if self.on {
            let bytes = bytes.map(|bytes| bytes.to_string()).unwrap_or_default();
            let columns = event_columns(activity, number, event, "");
            self.line(&format!("{columns:<68}  {bytes:>5}  {told}"));
        }
    }

    /// A timer that ran out, with its ticket and what the library made of it.
    pub fn timer(&self, activity: &[u8; 16], number: u32, name: &str, ticket: u64, outcome: &Outcome<'_>) {
        if self.on {
            let told = format!("ticket {ticket} {}", told(outcome));
            let columns = event_columns(activity, number, "timer", name);
            self.line(&format!("{columns:<75}  {}", told));
        }
    }

    fn line(&self, columns: &str) {
        let time = self.began.elapsed().as_secs_f64() * 1000.0;
        say(format!("{time:>9.1}  {:<10}  {columns}", self.side).trim_end());
    }
}

/// What the stub was told, or why the event was refused.
fn told(outcome: &Outcome<'_>) -> String {
    match outcome {
        Outcome::Refused(refusal) => format!("refused {refusal}"),
        Outcome::Done { notice: Some(notice), .. } => notice.to_string(),
        Outcome::Done { notice: None, .. } => String::new(),
    }
}

fn event_columns(activity: &[u8; 16], number: u32, event: &str, name: &str) -> String {
    format!("{}  {event:<8}  {name:<10} {number:>4}", short(activity))
}

fn pdu_columns(event: &str, datagram: &[u8], told: &str) -> String {
    let Ok(header) = Header::read(datagram) else {
        return format!("{:<8}  {event:<8}  {} bytes that are no PDU  {told}", "", datagram.len());
    };
    let told = match (body_told(&header, datagram), told) {
        (None, told) => told.to_string(),
        (Some(body), "") => body,
        (Some(body), told) => format!("{body}; {told}"),
    };
    format!(
        "{}  {event:<8}  {:<10} {:>4}  {:>8}  {:<14}  {:>6}  {:>5}  {told}",
        short(&header.activity()),
        header.pdu_type(),
        header.number(),
        header.fragment(),
        flags(&header),
        header.serial(),
        header.body_length(),
    )
}

/// What the body of a fack, a cancel or a cancel_ack tells. Nothing where it is not such a body.
fn body_told(header: &Header, datagram: &[u8]) -> Option<String> {
    let body = Body { bytes: datagram.get(HEADER_SIZE..)?, little_endian: header.bytes()[4] != 0 };
    match header.pdu_type() {
        PduType::Fack => fack(header.fragment(), &body),
        PduType::Cancel => cancel(&body),
        PduType::CancelAck => cancel_ack(&body),
        _ => None,
    }
}

/// A body, in its sender's byte order.
struct Body<'a> {
    bytes: &'a [u8],
    little_endian: bool,
}

impl Body<'_> {
    /// The number of so many bytes at that place, if it is there.
    fn number(&self, at: usize, size: usize) -> Option<u32> {
        let bytes = self.bytes.get(at..at + size)?.iter();
        let digit = |number: u32, byte: &u8| number << 8 | u32::from(*byte);
        Some(if self.little_endian { bytes.rfold(0, digit) } else { bytes.fold(0, digit) })
    }

    /// Whether it has this length, and version 0 in so many bytes.
    fn is_readable(&self, version_size: usize, length: usize) -> bool {
        self.number(0, version_size) == Some(0) && self.bytes.len() == length
    }
}

/// How far fragments are held without a gap, which are held behind that, and the serial that the fack answers.
fn fack(fragment: u16, body: &Body) -> Option<String> {
    let (serial, masks, mask) = (body.number(12, 2)?, body.number(14, 2)?, body.number(16, 4)?);
    let held = match fragment {
        u16::MAX => String::from("lacks 0"),
        last => format!("holds 0 to {last}"),
    };
    let readable = body.is_readable(1, 16 + 4 * masks as usize);
    readable.then(|| format!("{held}, mask {mask:#010x}, answers serial {serial}"))
}

/// The number of the cancel.
fn cancel(body: &Body) -> Option<String> {
    let number = body.number(4, 4)?;
    body.is_readable(4, 8).then(|| format!("number {number}"))
}

/// The number of the cancel that is answered, and whether the server accepts it.
fn cancel_ack(body: &Body) -> Option<String> {
    let (number, accepts) = (body.number(4, 4)?, body.number(8, 4)?);
    body.is_readable(4, 12).then(|| format!("number {number}, accepts {accepts}"))
}

fn flags(header: &Header) -> String {
    let names = [(FRAGMENT, "frag"), (LAST_FRAGMENT, "last"), (NO_FACK, "nofack"), (IDEMPOTENT, "idem")];
    let set: Vec<&str> = names.iter().filter(|&&(flag, _)| header.has(flag)).map(|&(_, name)| name).collect();
    set.join(" ")
}

/// The first group of a UUID as it is written, to tell activities apart.
fn short(activity: &[u8; 16]) -> String {
    format!("{:02x}{:02x}{:02x}{:02x}", activity[3], activity[2], activity[1], activity[0])
}

#[cfg(test)]
mod tests {
    use super::*;
    use crate::{Notice, Refusal};

    #[test]
    fn a_pdu_is_one_line() {
        let mut datagram = [0; 83];
        (datagram[0], datagram[1], datagram[2], datagram[4], datagram[74]) = (4, 2, FRAGMENT | LAST_FRAGMENT, 16, 3);
        (datagram[40], datagram[64], datagram[76], datagram[79]) = (0xab, 5, 31, 9);
        assert_eq!(
            pdu_columns("received", &datagram, "x"),
            "000000ab  received  response      5        31  frag last            9      3  x"
        );
        assert_eq!(pdu_columns("received", &datagram[..79], "x"), "          received  79 bytes that are no PDU  x");
    }

    /// A PDU of call 5, in either order, of this type, with this fragment number and this body.
    fn pdu(pdu_type: u8, little_endian: bool, fragment: u16, body: &[u8]) -> Vec<u8> {
        let mut pdu = [&[4, pdu_type][..], &[0; 78], body].concat();
        let short = |number: u16| if little_endian { number.to_le_bytes() } else { number.to_be_bytes() };
        pdu[4] = if little_endian { 16 } else { 0 };
        pdu[if little_endian { 64 } else { 67 }] = 5;
        pdu[74..76].copy_from_slice(&short(body.len() as u16));
        pdu[76..78].copy_from_slice(&short(fragment));
        pdu
    }

    #[test]
    fn a_fack_tells_what_is_held_in_either_order() {
        let (little, big) = ([3, 1, 1, 0, 5, 0, 0, 0x80], [1, 3, 0, 1, 0x80, 0, 0, 5]);
        let one = "00000000  sent      fack          5         2                       0     20  \
                   holds 0 to 2, mask 0x80000005, answers serial 259";
        let other = "00000000  received  fack          5     65535                       0     20  \
                     lacks 0, mask 0x80000005, answers serial 259; x";
        for (little_endian, end) in [(true, little), (false, big)] {
            let body = [&[0; 12][..], &end].concat();
            assert_eq!(pdu_columns("sent", &pdu(9, little_endian, 2, &body), ""), one);
            assert_eq!(pdu_columns("received", &pdu(9, little_endian, 65_535, &body), "x"), other);
        }
    }

    #[test]
    fn of_a_strange_fack_nothing_more_is_told() {
        let strange =
            [(0, 0, 0), (0, 0, 16), (0, 1, 16), (0, 1, 19), (0, 1, 21), (0, 2, 20), (0, 255, 20), (1, 1, 20)];
        for (version, masks, length) in strange {
            let mut body = [0; 24];
            (body[0], body[14]) = (version, masks);
            let line = pdu_columns("sent", &pdu(9, true, 2, &body[..length]), "x");
            assert!(line.ends_with(&format!("     0  {length:>5}  x")), "{line}");
        }
    }

    #[test]
    fn a_cancel_and_its_ack_tell_the_number_in_either_order() {
        let (little, big) = ([0, 0, 0, 0, 3, 1, 0, 0, 1, 0, 0, 0], [0, 0, 0, 0, 0, 0, 1, 3, 0, 0, 0, 1]);
        for (little_endian, body) in [(true, little), (false, big)] {
            assert_eq!(
                pdu_columns("sent", &pdu(8, little_endian, 0, &body[..8]), ""),
                "00000000  sent      cancel        5         0                       0      8  number 259"
            );
            assert_eq!(
                pdu_columns("received", &pdu(10, little_endian, 0, &body), "x"),
                "00000000  received  cancel_ack    5         0                       0     12  \
                 number 259, accepts 1; x"
            );
        }
    }

    #[test]
    fn of_a_strange_cancel_nothing_more_is_told() {
        for (pdu_type, version, length) in [(8, 0, 7), (8, 0, 9), (8, 0, 12), (8, 1, 8), (10, 0, 8), (10, 1, 12)] {
            let mut body = [0; 16];
            body[0] = version;
            let line = pdu_columns("sent", &pdu(pdu_type, true, 0, &body[..length]), "x");
            assert!(line.ends_with(&format!("     0  {length:>5}  x")), "{line}");
        }
    }

    #[test]
    fn outcomes_are_told() {
        assert_eq!(told(&Outcome::Refused(Refusal::LateTimer)), "refused 18 (late timer)");
        assert_eq!(told(&Outcome::Done { pdu: None, notice: Some(Notice::Count(2)) }), "count 2");
        assert_eq!(told(&Outcome::Done { pdu: None, notice: None }), "");
    }
}
