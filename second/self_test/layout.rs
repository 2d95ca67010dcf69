//! Records as bytes: the places of their fields, worked out by hand, and both ways between bytes
//! and records.

use super::all::check;
use crate::door::places::RecordBytes;
use crate::door::record_bytes::{decode, encode};
use crate::generate::bytes::meaningless::Meaningless;
use crate::generate::bytes::records::ways;
use crate::generate::made::Made;
use crate::generate::random::Random;
use crate::records::call::Call;
use crate::records::client::{Client, ClientSide, State as ClientState};
use crate::records::outgoing::Outgoing;
use crate::records::record::Record;
use crate::records::server::{Server, ServerSide, State as ServerState};
use crate::records::side::Side;

const ROUNDS: usize = 2_000;

pub fn self_test() -> Result<(), &'static str> {
    check(encode(&client()) == client_bytes(), "a client's places")?;
    check(encode(&server()) == server_bytes(), "a server's places")?;
    fresh_bytes()?;
    let mut random = Random::new(5);
    for turn in 0..ROUNDS {
        round_trip::<ClientSide>(turn, &mut random)?;
        round_trip::<ServerSide>(turn, &mut random)?;
    }
    Ok(())
}

/// What both records of the places have.
fn fill<S: Side>(record: &mut Record<S>) {
    record.number = 0x1312_1110;
    record.call = Call {
        idempotent: true,
        object: [112; 16],
        interface: [128; 16],
        version: 0x1716_1514,
        operation: 0x0f0e,
    };
    record.outgoing = Outgoing {
        length: 0x1b1a_1918,
        fragments: 4,
        sent: 6,
        acknowledged: 8,
        serial: 0x0d0c,
    };
    record.incoming.last = Some(10);
    record.incoming.slots[0] = Some(0x9190);
    record.incoming.slots[31] = Some(0x0d0c);
    record.resends = 3;
    record.tickets.counter = 0x2726_2524_2322_2120;
}

fn client() -> Client {
    let mut client = Client::fresh([96; 16], 0);
    fill(&mut client);
    client.state = ClientState::Fault;
    client.own.waits = 2;
    client.own.wait = Some(0x2f2e_2d2c_2b2a_2928);
    client.own.ack = Some(0x3736_3534_3332_3130);
    client.own.cancel = Some(0x3f3e_3d3c_3b3a_3938);
    client.own.cancel_number = 0x4746_4544;
    client
}

fn server() -> Server {
    let mut server = Server::fresh([96; 16], 0x1f1e_1d1c, 0);
    fill(&mut server);
    server.state = ServerState::HeldFault;
    server.own.status = 0x3332_3130;
    server.own.resend = Some(0x2f2e_2d2c_2b2a_2928);
    server.own.cancel_number = 0x4746_4544;
    server
}

/// The bytes of what both have, from the document's table: mostly each byte is its own place.
fn shared_bytes() -> RecordBytes {
    let mut bytes = [0; 272];
    bytes[1] = 1;
    bytes[4] = 4;
    bytes[6] = 6;
    bytes[8] = 8;
    bytes[10] = 10;
    for place in (12..28).chain(32..40) {
        bytes[place] = place as u8;
    }
    bytes[96..112].fill(96);
    bytes[112..128].fill(112);
    bytes[128..144].fill(128);
    bytes[144..147].copy_from_slice(&[0x90, 0x91, 1]);
    bytes[268..271].copy_from_slice(&[0x0c, 0x0d, 1]);
    bytes
}

fn client_bytes() -> RecordBytes {
    let mut bytes = shared_bytes();
    bytes[..4].copy_from_slice(&[6, 1, 2, 3]);
    for place in (40..64).chain(68..72) {
        bytes[place] = place as u8;
    }
    bytes[64..67].fill(1);
    bytes
}

fn server_bytes() -> RecordBytes {
    let mut bytes = shared_bytes();
    bytes[..4].copy_from_slice(&[7, 1, 3, 0]);
    for place in (28..32).chain(40..52).chain(68..72) {
        bytes[place] = place as u8;
    }
    bytes[64] = 1;
    bytes
}

/// A fresh record has its activity, its tickets, no known last and, at a server, the boot value.
fn fresh_bytes() -> Result<(), &'static str> {
    let mut bytes = [0; 272];
    bytes[10..12].fill(255);
    bytes[32] = 9;
    bytes[96..112].fill(7);
    check(
        encode(&Client::fresh([7; 16], 9)) == bytes,
        "the bytes of a fresh client",
    )?;
    bytes[28] = 8;
    check(
        encode(&Server::fresh([7; 16], 8, 9)) == bytes,
        "the bytes of a fresh server",
    )
}

/// A record is that of its bytes, also where what means nothing is anything; and there are bytes
/// of none.
fn round_trip<S: Made + Meaningless>(turn: usize, random: &mut Random) -> Result<(), &'static str> {
    let mut record = S::sound_record(S::STATES[turn % S::STATES.len()], random);
    if turn.is_multiple_of(3) {
        record.break_any_rule(random);
    }
    let canonical = encode(&record);
    let decoded = decode::<S>(&canonical).ok_or("the bytes of a record are readable")?;
    check(encode(&decoded) == canonical, "bytes decoded and encoded")?;
    let mut scrambled = canonical;
    S::scramble(&mut scrambled, random);
    check(
        decode::<S>(&scrambled) == Some(decoded),
        "what means nothing is not read",
    )?;
    if turn.is_multiple_of(10) {
        every_place::<S>(&canonical)?;
    }
    let ways = ways::<S>();
    let mut spoiled = canonical;
    ways[turn % ways.len()].spoil::<S>(&mut spoiled, random);
    check(
        decode::<S>(&spoiled).is_none(),
        "bytes that are not readable",
    )
}

/// Whichever byte is changed, there is no record, or it has all that the bytes say but for what
/// means nothing. So a spare byte that is not judged is found without a list of those that are.
fn every_place<S: Meaningless>(canonical: &RecordBytes) -> Result<(), &'static str> {
    for place in 0..canonical.len() {
        for bits in [1, 2, 255] {
            let mut changed = *canonical;
            changed[place] ^= bits;
            let Some(record) = decode::<S>(&changed) else {
                continue;
            };
            for (at, length) in S::places(&changed) {
                changed[at..at + length].fill(0);
            }
            check(encode(&record) == changed, "all that is read is kept")?;
        }
    }
    Ok(())
}
