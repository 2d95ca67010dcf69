//! What the events reach of the reader and the writer.

use crate::codec::pdu::{self, offset, ByteOrder, BODY_LIMIT, HEADER_LENGTH};
use crate::codec::pdu::{HIGHEST_TYPE, PDU_LIMIT, VERSION};
use crate::coverage::counts::{pair_names, Counts};

const READ_ANSWERS: [u8; 8] = [0, 1, 3, 4, 5, 6, 7, 8];
const WRITE_ANSWERS: [u8; 5] = [0, 1, 5, 7, 8];

/// Datagram lengths, each with the answers that are possible there.
const READ_LENGTHS: [(usize, &[u8]); 6] = [
    (79, &[3]),
    (80, &[0, 4, 5, 6, 7, 8]),
    (81, &[0, 4, 5, 6, 7, 8]),
    (1_471, &[0, 4, 5, 6, 7, 8]),
    (1_472, &[0, 4, 5, 6, 7, 8]),
    (1_473, &[4, 5, 6, 7, 8]),
];

/// Body lengths, each with the answers that are possible there.
const WRITE_LENGTHS: [(usize, &[u8]); 5] = [
    (0, &[0, 5, 7]),
    (1, &[0, 5, 7]),
    (1_391, &[0, 5, 7]),
    (1_392, &[0, 5, 7]),
    (1_393, &[5, 7, 8]),
];

pub fn count_read(datagram: &[u8], header_length: usize, answer: u8, counts: &mut Counts) {
    counts.add(format_args!("read-answer-{answer}"));
    if let (0, Ok(pdu)) = (answer, pdu::read(datagram)) {
        let order = order_name(pdu.order);
        let pdu_type = pdu.header.pdu_type;
        counts.add(format_args!("read-{order}"));
        counts.add(format_args!("read-type-{pdu_type}-{order}"));
    }
    let length = datagram.len();
    let mut lengths = READ_LENGTHS.iter();
    if answer != 1 && lengths.any(|known| known.0 == length) {
        counts.add(format_args!("read-length-{length}-answer-{answer}"));
    }
    let mut grounds = read_grounds(datagram);
    if header_length != HEADER_LENGTH {
        grounds.insert(0, 1);
    }
    counts.add_pairs("", "read", &grounds);
}

pub fn count_write(
    header: &[u8],
    body_length: usize,
    pdu_length: usize,
    answer: u8,
    counts: &mut Counts,
) {
    counts.add(format_args!("write-answer-{answer}"));
    if answer == 0 {
        let pdu_type = header[offset::TYPE];
        counts.add(format_args!("write-type-{pdu_type}"));
    }
    let mut lengths = WRITE_LENGTHS.iter();
    if answer != 1 && lengths.any(|known| known.0 == body_length) {
        counts.add(format_args!("write-body-{body_length}-answer-{answer}"));
    }
    if header.len() != HEADER_LENGTH {
        counts.add_name("write of a header of another length");
        return;
    }
    let grounds = write_grounds(header, body_length, pdu_length);
    counts.add_pairs("", "write", &grounds);
}

/// Every answer for which a datagram gives grounds, not only the one that decides.
pub fn read_grounds(datagram: &[u8]) -> Vec<u8> {
    let byte = |at: usize| datagram.get(at).copied();
    let representation = datagram.get(offset::REPRESENTATION..offset::REPRESENTATION + 3);
    let order =
        representation.map(|bytes| ByteOrder::of_representation([bytes[0], bytes[1], bytes[2]]));
    let found = [
        (3, datagram.len() < HEADER_LENGTH),
        (
            4,
            byte(offset::VERSION).is_some_and(|version| version != VERSION),
        ),
        (
            5,
            byte(offset::TYPE).is_some_and(|pdu_type| pdu_type > HIGHEST_TYPE),
        ),
        (6, order == Some(None)),
        (
            7,
            byte(offset::AUTHENTICATION).is_some_and(|authentication| authentication != 0),
        ),
        (8, body_length_is_wrong(datagram, order.flatten())),
    ];
    found
        .into_iter()
        .filter(|(_, holds)| *holds)
        .map(|(number, _)| number)
        .collect()
}

/// Where the byte order is not known: wrong in both.
fn body_length_is_wrong(datagram: &[u8], order: Option<ByteOrder>) -> bool {
    let Some((header, body)) = datagram.split_first_chunk::<HEADER_LENGTH>() else {
        return true;
    };
    let field = [header[offset::BODY_LENGTH], header[offset::BODY_LENGTH + 1]];
    let wrong = |length: u16| usize::from(length) != body.len() || body.len() > BODY_LIMIT;
    let wrong_little = wrong(u16::from_le_bytes(field));
    let wrong_big = wrong(u16::from_be_bytes(field));
    match order {
        Some(ByteOrder::Little) => wrong_little,
        Some(ByteOrder::Big) => wrong_big,
        None => wrong_little && wrong_big,
    }
}

fn write_grounds(header: &[u8], body_length: usize, lent_length: usize) -> Vec<u8> {
    let found = [
        (1, lent_length != PDU_LIMIT),
        (5, header[offset::TYPE] > HIGHEST_TYPE),
        (7, header[offset::AUTHENTICATION] != 0),
        (8, body_length > BODY_LIMIT),
    ];
    found
        .into_iter()
        .filter(|(_, holds)| *holds)
        .map(|(number, _)| number)
        .collect()
}

pub fn order_name(order: ByteOrder) -> &'static str {
    match order {
        ByteOrder::Little => "little",
        ByteOrder::Big => "big",
    }
}

/// All that can be reached, in the order in which it is printed.
pub fn names() -> Vec<String> {
    let mut names = vec!["write of a header of another length".to_string()];
    names.extend(READ_ANSWERS.map(|answer| format!("read-answer-{answer}")));
    for order in ["little", "big"] {
        names.push(format!("read-{order}"));
        names.extend((0..=HIGHEST_TYPE).map(|pdu_type| format!("read-type-{pdu_type}-{order}")));
    }
    for (length, answers) in READ_LENGTHS {
        names.extend(
            answers
                .iter()
                .map(|answer| format!("read-length-{length}-answer-{answer}")),
        );
    }
    names.extend(pair_names("read", &READ_ANSWERS[1..]));
    names.extend(WRITE_ANSWERS.map(|answer| format!("write-answer-{answer}")));
    names.extend((0..=HIGHEST_TYPE).map(|pdu_type| format!("write-type-{pdu_type}")));
    for (length, answers) in WRITE_LENGTHS {
        names.extend(
            answers
                .iter()
                .map(|answer| format!("write-body-{length}-answer-{answer}")),
        );
    }
    names.extend(pair_names("write", &WRITE_ANSWERS[1..]));
    names
}
