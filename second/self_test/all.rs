//! A small check of this program against itself and against rows of the papers.

use super::side::datagram_rows;
use super::{
    begun_again, cancel_bodies, cancel_door, cancel_ends, cancels, client, compared, demand,
};
use super::{fack_details, facks, layout, middle, played, rows, server, server_calls};
use super::{mistaken_cancels, server_cancels, told};
use crate::bench::message::message;
use crate::codec::fack::{body, Held};
use crate::codec::pdu::{read, write, ByteOrder, Header, BODY_LIMIT, HIGHEST_TYPE, PDU_LIMIT};
use crate::generate::datagram::datagram;
use crate::generate::random::Random;
use crate::machines::refusal::{answer, Refusal};

const ROUNDS: usize = 10_000;

/// The name of the first check that fails.
pub fn self_test() -> Result<(), &'static str> {
    check(
        message(1_394, 250)[1_391..] == [3, 11, 18],
        "bytes of a message",
    )?;
    fack_rows()?;
    reading_rows()?;
    field_places()?;
    let mut random = Random::new(1);
    for _ in 0..ROUNDS {
        round_trip(&mut random)?;
    }
    writing_rows(&random.header(7))?;
    client::self_test()?;
    server::self_test()?;
    server_calls::self_test()?;
    facks::self_test()?;
    fack_details::self_test()?;
    middle::self_test()?;
    begun_again::self_test()?;
    cancels::self_test()?;
    cancel_ends::self_test()?;
    server_cancels::self_test()?;
    cancel_bodies::self_test()?;
    cancel_door::self_test()?;
    rows::self_test()?;
    layout::self_test()?;
    compared::self_test()?;
    mistaken_cancels::self_test()?;
    told::self_test()?;
    demand::self_test()?;
    played::self_test()
}

/// Document 01's bench rows of a fack, and its body.
fn fack_rows() -> Result<(), &'static str> {
    let gap = Held(0b11011);
    check(
        (gap.contiguous(), gap.number(), gap.mask()) == (2, 1, 6),
        "a fack of 0, 1, 3 and 4",
    )?;
    let none = Held(0b110);
    check(
        (none.contiguous(), none.number(), none.mask()) == (0, 65_535, 6),
        "a fack of 1 and 2",
    )?;
    let sizes = [0, 0, 43, 0, 0xc0, 5, 0, 0, 0xc0, 5, 0, 0];
    let serial_count_and_mask = [2, 1, 1, 0, 4, 3, 2, 1];
    check(
        body(258, 0x0102_0304) == [&sizes[..], &serial_count_and_mask].concat(),
        "the body of a fack",
    )
}

pub fn check(holds: bool, name: &'static str) -> Result<(), &'static str> {
    if holds {
        Ok(())
    } else {
        Err(name)
    }
}

fn reading_rows() -> Result<(), &'static str> {
    for (datagram, number, name) in datagram_rows() {
        check(answer(&read(&datagram)) == number, name)?;
    }
    Ok(())
}

/// A header of which each byte is its own place, but for those that are judged. A sender's byte
/// order tells how the bytes of UUIDs and numbers lie.
fn header_of_places(
    uuid_places: [u8; 16],
    u32_of: fn([u8; 4]) -> u32,
    u16_of: fn([u8; 2]) -> u16,
) -> Header {
    let uuid_at = |at: u8| uuid_places.map(|place| at + place);
    let u32_at = |at: u8| u32_of([at, at + 1, at + 2, at + 3]);
    let u16_at = |at: u8| u16_of([at, at + 1]);
    Header {
        pdu_type: 1,
        flags1: 2,
        flags2: 3,
        serial: 7 * 256 + 79,
        object: uuid_at(8),
        interface: uuid_at(24),
        activity: uuid_at(40),
        server_boot: u32_at(56),
        interface_version: u32_at(60),
        call_number: u32_at(64),
        operation: u16_at(68),
        interface_hint: u16_at(70),
        activity_hint: u16_at(72),
        fragment_number: u16_at(76),
        authentication: 0,
    }
}

fn field_places() -> Result<(), &'static str> {
    let mut bytes: Vec<u8> = (0..80).collect();
    bytes[0] = 4;
    bytes[4..7].copy_from_slice(&[16, 0, 0]);
    bytes[74..76].copy_from_slice(&[0, 0]);
    bytes[78] = 0;
    let places = [0, 1, 2, 3, 4, 5, 6, 7, 8, 9, 10, 11, 12, 13, 14, 15];
    let little = header_of_places(places, u32::from_le_bytes, u16::from_le_bytes);
    check(
        read(&bytes).map(|pdu| pdu.header) == Ok(little),
        "places, little-endian",
    )?;
    bytes[4] = 0;
    let places = [3, 2, 1, 0, 5, 4, 7, 6, 8, 9, 10, 11, 12, 13, 14, 15];
    let big = header_of_places(places, u32::from_be_bytes, u16::from_be_bytes);
    check(
        read(&bytes).map(|pdu| pdu.header) == Ok(big),
        "places, big-endian",
    )
}

/// What is written is read back, and so is the same PDU from a sender of either byte order.
fn round_trip(random: &mut Random) -> Result<(), &'static str> {
    let pdu_type = random.between(0, usize::from(HIGHEST_TYPE)) as u8;
    let header = random.header(pdu_type);
    let body_length = random.between(0, BODY_LIMIT);
    let body = message(body_length, random.u8());
    let mut lent = [0xa5; PDU_LIMIT];
    let length = write(&header, &body, &mut lent).map_err(|_| "a good write")?;
    let (written, behind) = lent.split_at(length);
    check(
        behind.iter().all(|byte| *byte == 0xa5),
        "bytes behind the PDU",
    )?;
    check(
        written == datagram(&header, ByteOrder::Little, &body),
        "the bytes written",
    )?;
    for order in [ByteOrder::Little, ByteOrder::Big] {
        let sent = datagram(&header, order, &body);
        let pdu = read(&sent).map_err(|_| "a good read")?;
        check(
            pdu.order == order && pdu.header == header && pdu.body == body,
            "the fields read",
        )?;
    }
    Ok(())
}

fn writing_rows(header: &Header) -> Result<(), &'static str> {
    let refused = |header: &Header, body_length: usize, lent_length: usize, refusal: Refusal| {
        let mut lent = vec![0xa5; lent_length];
        let result = write(header, &vec![0; body_length], &mut lent);
        result == Err(refusal) && lent.iter().all(|byte| *byte == 0xa5)
    };
    let wrong_type = Header {
        pdu_type: 11,
        authentication: 1,
        ..header.clone()
    };
    let authenticated = Header {
        authentication: 1,
        ..header.clone()
    };
    check(
        refused(&wrong_type, 1_393, 1_471, Refusal::LentBuffer),
        "lent buffer too short",
    )?;
    check(
        refused(&wrong_type, 1_393, 1_473, Refusal::LentBuffer),
        "lent buffer too long",
    )?;
    check(
        refused(&wrong_type, 1_393, 1_472, Refusal::Type),
        "writing type 11",
    )?;
    check(
        refused(&authenticated, 1_393, 1_472, Refusal::Authentication),
        "writing authentication 1",
    )?;
    check(
        refused(header, 1_393, 1_472, Refusal::BodyLength),
        "writing a body of 1393",
    )
}
