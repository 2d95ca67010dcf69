//! Cases 9 and 10 of request 2, by hand: the bodies of cancel and cancel_ack in both byte orders, and
//! both types at the wrong side.

use crate::codec::pdu::{pdu_type, ByteOrder};
use crate::machines::refusal::{answer, Refusal};
use crate::records::client::ClientSide;
use crate::records::server::ServerSide;
use crate::self_test::all::check;
use crate::self_test::client_stage::{cancel, dispatched};
use crate::self_test::server_stage::{running, NUMBER};
use crate::self_test::side::{arrive_in, header_of};

/// Bodies in their byte order, and what is answered.
type Cases<'a> = &'a [(ByteOrder, &'a [u8], u8)];

use ByteOrder::{Big, Little};

/// Cancels of a call that runs. Four of them have the number 1 or 16777216 in one of the orders.
const CANCELS: Cases = &[
    (Little, &[], 14),
    (Little, &[0; 7], 14),
    (Little, &[0; 8], 0),
    (Big, &[0; 8], 0),
    (Little, &[0; 9], 14),
    (Little, &[0; 12], 14),
    (Big, &[0; 12], 14),
    (Little, &[0, 0, 0, 0, 1, 0, 0, 0], 0),
    (Big, &[0, 0, 0, 0, 1, 0, 0, 0], 0),
    (Little, &[0, 0, 0, 0, 255, 255, 255, 255], 0),
    (Little, &[1, 0, 0, 0, 1, 0, 0, 0], 14),
    (Big, &[1, 0, 0, 0, 1, 0, 0, 0], 14),
    (Little, &[0, 0, 0, 1, 1, 0, 0, 0], 14),
    (Big, &[0, 0, 0, 1, 1, 0, 0, 0], 14),
    (Little, &[0, 1, 0, 0, 1, 0, 0, 0], 14),
];

/// Cancel_acks where the last cancel is 1.
const CANCEL_ACKS: Cases = &[
    (Little, &[], 14),
    (Little, &[0; 7], 14),
    (Little, &[0, 0, 0, 0, 1, 0, 0, 0], 14),
    (Little, &[0; 9], 14),
    (Little, &[0, 0, 0, 0, 1, 0, 0, 0, 0, 0, 0, 0, 0], 14),
    (Little, &[0, 0, 0, 0, 1, 0, 0, 0, 0, 0, 0, 0], 0),
    (Little, &[0, 0, 0, 0, 1, 0, 0, 0, 1, 0, 0, 0], 0),
    (Big, &[0, 0, 0, 0, 0, 0, 0, 1, 0, 0, 0, 0], 0),
    (Big, &[0, 0, 0, 0, 0, 0, 0, 1, 0, 0, 0, 1], 0),
    // 1 in the other byte order.
    (Little, &[0, 0, 0, 0, 0, 0, 0, 1, 0, 0, 0, 0], 15),
    (Big, &[0, 0, 0, 0, 1, 0, 0, 0, 0, 0, 0, 0], 15),
    (Little, &[0, 0, 0, 0, 1, 0, 0, 0, 0, 0, 0, 1], 14),
    (Big, &[0, 0, 0, 0, 0, 0, 0, 1, 1, 0, 0, 0], 14),
    // The third word is 2, then 256.
    (Little, &[0, 0, 0, 0, 1, 0, 0, 0, 2, 0, 0, 0], 14),
    (Big, &[0, 0, 0, 0, 0, 0, 0, 1, 0, 0, 0, 2], 14),
    (Little, &[0, 0, 0, 0, 1, 0, 0, 0, 0, 1, 0, 0], 14),
    (Big, &[0, 0, 0, 0, 0, 0, 0, 1, 0, 0, 1, 0], 14),
    // The version is 1, or 1 in the other byte order.
    (Little, &[1, 0, 0, 0, 1, 0, 0, 0, 0, 0, 0, 0], 14),
    (Big, &[0, 0, 0, 1, 0, 0, 0, 1, 0, 0, 0, 0], 14),
    (Little, &[0, 0, 0, 1, 1, 0, 0, 0, 0, 0, 0, 0], 14),
    (Big, &[1, 0, 0, 0, 0, 0, 0, 1, 0, 0, 0, 0], 14),
];

pub fn self_test() -> Result<(), &'static str> {
    cancels()?;
    numbers_read()?;
    cancel_acks()?;
    wrong_side()
}

fn cancels() -> Result<(), &'static str> {
    let header = header_of(pdu_type::CANCEL, NUMBER, 0, 0);
    for (order, body, number) in CANCELS {
        let outcome = arrive_in::<ServerSide>(&mut running(false), *order, &header, body);
        check(
            answer(&outcome) == *number,
            "cancel case 9: the body of a cancel",
        )?;
    }
    Ok(())
}

/// The number is read in the cancel's byte order, and sent in the little-endian one.
fn numbers_read() -> Result<(), &'static str> {
    let header = header_of(pdu_type::CANCEL, NUMBER, 0, 0);
    let body = [0, 0, 0, 0, 1, 2, 3, 4];
    let orders = [
        (Little, [1, 2, 3, 4], 0x0403_0201),
        (Big, [4, 3, 2, 1], 0x0102_0304),
    ];
    for (order, echoed, seen) in orders {
        let mut stage = running(false);
        let outcome = arrive_in::<ServerSide>(&mut stage, order, &header, &body);
        check(
            outcome.is_ok() && stage.pdu[84..88] == echoed,
            "cancel case 9: the number of a cancel is echoed",
        )?;
        check(
            stage.server.own.cancel_number == seen,
            "cancel case 9: the number of a cancel is read",
        )?;
    }
    Ok(())
}

fn cancel_acks() -> Result<(), &'static str> {
    let header = header_of(pdu_type::CANCEL_ACK, 0, 0, 0);
    for (order, body, number) in CANCEL_ACKS {
        let mut stage = dispatched(false, 8);
        check(cancel(&mut stage).is_ok(), "a cancel before its cancel_ack")?;
        let outcome = arrive_in::<ClientSide>(&mut stage, *order, &header, body);
        check(
            answer(&outcome) == *number && stage.client.own.cancel.is_some() == (*number != 0),
            "cancel case 9: the body of a cancel_ack",
        )?;
        let mut other = header.clone();
        other.call_number = 1;
        let outcome = arrive_in::<ClientSide>(&mut stage, *order, &other, body);
        check(
            outcome == Err(Refusal::OldCall),
            "another call comes before the body of a cancel_ack",
        )?;
    }
    Ok(())
}

/// Case 10. Well formed or not, a cancel is nothing for a client, nor a cancel_ack for a server.
fn wrong_side() -> Result<(), &'static str> {
    let refused = Err(Refusal::TypeNotForThisSide);
    for body in [&[0; 8][..], &[0; 12], &[]] {
        let header = header_of(pdu_type::CANCEL, 0, 0, 0);
        let outcome = arrive_in::<ClientSide>(&mut dispatched(false, 8), Little, &header, body);
        check(outcome == refused, "cancel case 10: a cancel at the client")?;
        let header = header_of(pdu_type::CANCEL_ACK, NUMBER, 0, 0);
        let outcome = arrive_in::<ServerSide>(&mut running(false), Little, &header, body);
        check(
            outcome == refused,
            "cancel case 10: a cancel_ack at the server",
        )?;
    }
    Ok(())
}
