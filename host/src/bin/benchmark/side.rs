//! The two sides: what the exports of both have in common.

use morphelai::door;

/// The activity of both machines.
pub const ACTIVITY: [u8; 16] = [7; 16];
/// The server's boot value.
const BOOT: u32 = 1;

/// Record, datagram, slot buffer and PDU buffer.
type Arrive = fn(&mut [u8], &[u8], &mut [u8], &mut [u8]) -> u64;

/// A side's events, as far as both sides have them.
pub struct Side {
    pub name: &'static str,
    /// Makes a fresh record, with a ticket counter to start from.
    pub fresh: fn(&mut [u8], u64) -> u64,
    pub transmit: fn(&mut [u8], &[u8], &mut [u8]) -> u64,
    pub arrive: Arrive,
    pub timer: fn(&mut [u8], u8, u64, &mut [u8]) -> u64,
    pub part: fn(&[u8], u16, &[u8]) -> u64,
}

pub static CLIENT: Side = Side {
    name: "client",
    fresh: |record, tickets| door::client_fresh(record, &ACTIVITY, tickets),
    transmit: door::client_transmit,
    arrive: door::client_arrive,
    timer: door::client_timer,
    part: door::client_part,
};

pub static SERVER: Side = Side {
    name: "server",
    fresh: |record, tickets| door::server_fresh(record, &ACTIVITY, BOOT, tickets),
    transmit: door::server_transmit,
    arrive: door::server_arrive,
    timer: door::server_timer,
    part: door::server_part,
};
