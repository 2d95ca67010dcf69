//! Calls in words, as they are told where something differs.

use super::memory::Lengths;
use crate::door::invocation::{Invocation, Invoked};
use std::fmt::{self, Write};

/// So many bytes are told; of the others only how many there are.
const TOLD: usize = 112;

pub fn in_base_16(bytes: &[u8]) -> String {
    let mut told = String::new();
    for byte in bytes {
        // Writing to a string cannot fail.
        let _ = write!(told, "{byte:02x}");
    }
    told
}

/// The first bytes, and how many there are.
pub fn bytes_told(bytes: &[u8]) -> String {
    let first = in_base_16(&bytes[..bytes.len().min(TOLD)]);
    let more = if bytes.len() > TOLD { "..." } else { "" };
    format!("[{first}{more}] of {} bytes", bytes.len())
}

impl fmt::Display for Lengths {
    fn fmt(&self, to: &mut fmt::Formatter) -> fmt::Result {
        let Lengths {
            record, slots, pdu, ..
        } = self;
        write!(to, "record {record}, slots {slots}, PDU buffer {pdu}")
    }
}

/// A function with its arguments and what is lent to it.
pub fn told<S: Invoked>(invocation: &Invocation<S>, lengths: Lengths) -> String {
    let what = match invocation {
        Invocation::Fresh {
            activity,
            argument,
            tickets,
        } => format!(
            "fresh, activity {}, argument {argument:?}, tickets {tickets}",
            bytes_told(activity)
        ),
        Invocation::Transmit { message } => format!("transmit {}", bytes_told(message)),
        Invocation::Arrive { datagram } => format!("arrive {}", bytes_told(datagram)),
        Invocation::Timer { kind, ticket } => format!("timer {kind}, ticket {ticket}"),
        Invocation::Own(own) => format!("{own:02x?}"),
    };
    format!("{} {what}, lent {lengths}", S::WORDS.side)
}
