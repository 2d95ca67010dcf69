//! The exports on slices, for hosts that keep the memory themselves. Any lengths may be given: the library judges
//! them. Rust's borrows see to it that what is written overlaps nothing else that is lent, and that a record which an
//! event steps is lent to that event alone.
//!
//! Each event gives back one number: bits 0 to 7 the answer, 8 to 15 the notice's kind, 16 to 31 the length of the PDU
//! sent, which lies at the front of the PDU buffer, 32 to 63 the notice's value. [`crate::Client`] and
//! [`crate::Server`] take it apart.

use crate::exports::*;

/// The size of a record: 272.
pub fn record_size() -> usize {
    // SAFETY: it takes nothing.
    unsafe { morphelai_record_size() }
}

/// Makes the record a fresh client's of an activity (16 bytes), with a ticket counter to start from.
pub fn client_fresh(record: &mut [u8], activity: &[u8], tickets: u64) -> u64 {
    // SAFETY: each pointer goes with the length of its slice; what is written is borrowed alone.
    unsafe { morphelai_client_fresh(record.as_mut_ptr(), record.len(), activity.as_ptr(), activity.len(), tickets) }
}

/// Starts a call with a message of that length; `idempotent` is 0 or 1, UUIDs have 16 bytes.
pub fn client_start(
    record: &mut [u8],
    idempotent: u8,
    object: &[u8],
    interface: &[u8],
    version: u32,
    operation: u16,
    length: u32,
) -> u64 {
    // SAFETY: each pointer goes with the length of its slice; what is written is borrowed alone.
    unsafe {
        morphelai_client_start(
            record.as_mut_ptr(),
            record.len(),
            idempotent,
            object.as_ptr(),
            object.len(),
            interface.as_ptr(),
            interface.len(),
            version,
            operation,
            length,
        )
    }
}

/// Sends the next fragment of the call's message.
pub fn client_transmit(record: &mut [u8], message: &[u8], pdu: &mut [u8]) -> u64 {
    // SAFETY: each pointer goes with the length of its slice; what is written is borrowed alone.
    unsafe {
        morphelai_client_transmit(
            record.as_mut_ptr(),
            record.len(),
            message.as_ptr(),
            message.len(),
            pdu.as_mut_ptr(),
            pdu.len(),
        )
    }
}

/// Takes a datagram that came to the client.
pub fn client_arrive(record: &mut [u8], datagram: &[u8], slots: &mut [u8], pdu: &mut [u8]) -> u64 {
    // SAFETY: each pointer goes with the length of its slice; what is written is borrowed alone.
    unsafe {
        morphelai_client_arrive(
            record.as_mut_ptr(),
            record.len(),
            datagram.as_ptr(),
            datagram.len(),
            slots.as_mut_ptr(),
            slots.len(),
            pdu.as_mut_ptr(),
            pdu.len(),
        )
    }
}

/// Asks the server to end the client's call.
pub fn client_cancel(record: &mut [u8], pdu: &mut [u8]) -> u64 {
    // SAFETY: each pointer goes with the length of its slice; what is written is borrowed alone.
    unsafe { morphelai_client_cancel(record.as_mut_ptr(), record.len(), pdu.as_mut_ptr(), pdu.len()) }
}

/// Takes a timer of the client that ran out: kind 1 is WAIT, 2 is ACK, 4 is CANCEL.
pub fn client_timer(record: &mut [u8], kind: u8, ticket: u64, pdu: &mut [u8]) -> u64 {
    // SAFETY: each pointer goes with the length of its slice; what is written is borrowed alone.
    unsafe { morphelai_client_timer(record.as_mut_ptr(), record.len(), kind, ticket, pdu.as_mut_ptr(), pdu.len()) }
}

/// The length of the part of the reply that lies at 1,392 times the number; 0 where none is handed up.
pub fn client_part(record: &[u8], number: u16, slots: &[u8]) -> u64 {
    // SAFETY: each pointer goes with the length of its slice; what is written is borrowed alone.
    unsafe { morphelai_client_part(record.as_ptr(), record.len(), number, slots.as_ptr(), slots.len()) }
}

/// Makes the record a fresh server's of an activity (16 bytes): its boot value, and a ticket counter to start from.
pub fn server_fresh(record: &mut [u8], activity: &[u8], boot: u32, tickets: u64) -> u64 {
    // SAFETY: each pointer goes with the length of its slice; what is written is borrowed alone.
    unsafe {
        morphelai_server_fresh(record.as_mut_ptr(), record.len(), activity.as_ptr(), activity.len(), boot, tickets)
    }
}

/// Takes a datagram that came to the server.
pub fn server_arrive(record: &mut [u8], datagram: &[u8], slots: &mut [u8], pdu: &mut [u8]) -> u64 {
    // SAFETY: each pointer goes with the length of its slice; what is written is borrowed alone.
    unsafe {
        morphelai_server_arrive(
            record.as_mut_ptr(),
            record.len(),
            datagram.as_ptr(),
            datagram.len(),
            slots.as_mut_ptr(),
            slots.len(),
            pdu.as_mut_ptr(),
            pdu.len(),
        )
    }
}

/// Answers the running call with a reply of that length.
pub fn server_reply(record: &mut [u8], length: u32) -> u64 {
    // SAFETY: each pointer goes with the length of its slice; what is written is borrowed alone.
    unsafe { morphelai_server_reply(record.as_mut_ptr(), record.len(), length) }
}

/// Sends the next fragment of the reply.
pub fn server_transmit(record: &mut [u8], message: &[u8], pdu: &mut [u8]) -> u64 {
    // SAFETY: each pointer goes with the length of its slice; what is written is borrowed alone.
    unsafe {
        morphelai_server_transmit(
            record.as_mut_ptr(),
            record.len(),
            message.as_ptr(),
            message.len(),
            pdu.as_mut_ptr(),
            pdu.len(),
        )
    }
}

/// Answers the running call with a fault of that status.
pub fn server_fault(record: &mut [u8], status: u32, pdu: &mut [u8]) -> u64 {
    // SAFETY: each pointer goes with the length of its slice; what is written is borrowed alone.
    unsafe { morphelai_server_fault(record.as_mut_ptr(), record.len(), status, pdu.as_mut_ptr(), pdu.len()) }
}

/// Takes the timer of the server that ran out: kind 3 is RESEND.
pub fn server_timer(record: &mut [u8], kind: u8, ticket: u64, pdu: &mut [u8]) -> u64 {
    // SAFETY: each pointer goes with the length of its slice; what is written is borrowed alone.
    unsafe { morphelai_server_timer(record.as_mut_ptr(), record.len(), kind, ticket, pdu.as_mut_ptr(), pdu.len()) }
}

/// The length of the part of the request that lies at 1,392 times the number; 0 where none is handed up.
pub fn server_part(record: &[u8], number: u16, slots: &[u8]) -> u64 {
    // SAFETY: each pointer goes with the length of its slice; what is written is borrowed alone.
    unsafe { morphelai_server_part(record.as_ptr(), record.len(), number, slots.as_ptr(), slots.len()) }
}

/// Reads the header (80 bytes) of a datagram.
pub fn read(datagram: &[u8], header: &mut [u8]) -> u64 {
    // SAFETY: each pointer goes with the length of its slice; what is written is borrowed alone.
    unsafe { morphelai_read(datagram.as_ptr(), datagram.len(), header.as_mut_ptr(), header.len()) }
}

/// Writes a PDU of a header (80 bytes) and a body.
pub fn write(header: &[u8], body: &[u8], pdu: &mut [u8]) -> u64 {
    // SAFETY: each pointer goes with the length of its slice; what is written is borrowed alone.
    unsafe { morphelai_write(header.as_ptr(), header.len(), body.as_ptr(), body.len(), pdu.as_mut_ptr(), pdu.len()) }
}
