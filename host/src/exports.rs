//! The exports of the library as C declares them. [`crate::door`] is the safe way to them.
//!
//! # Safety
//! Each pointer with the length behind it must be memory that may be read, and where it is `*mut` written, for that
//! many bytes; a length of 0 may have any pointer. What is lent as `*mut` must not overlap anything else that is lent,
//! to this call or to another at the same time. Nothing is asked of alignment. The library keeps no pointer.

#![allow(clippy::too_many_arguments)]

extern "C" {
    /// The size of a record: 272.
    pub fn morphelai_record_size() -> usize;

    /// Makes the record a fresh client's.
    pub fn morphelai_client_fresh(
        record: *mut u8,
        record_length: usize,
        activity: *const u8,
        activity_length: usize,
        tickets: u64,
    ) -> u64;

    /// Starts a call with a message of that length.
    pub fn morphelai_client_start(
        record: *mut u8,
        record_length: usize,
        idempotent: u8,
        object: *const u8,
        object_length: usize,
        interface: *const u8,
        interface_length: usize,
        version: u32,
        operation: u16,
        length: u32,
    ) -> u64;

    /// Sends the next fragment of the call's message.
    pub fn morphelai_client_transmit(
        record: *mut u8,
        record_length: usize,
        message: *const u8,
        message_length: usize,
        pdu: *mut u8,
        pdu_length: usize,
    ) -> u64;

    /// Takes a datagram that came.
    pub fn morphelai_client_arrive(
        record: *mut u8,
        record_length: usize,
        datagram: *const u8,
        datagram_length: usize,
        slots: *mut u8,
        slots_length: usize,
        pdu: *mut u8,
        pdu_length: usize,
    ) -> u64;

    /// Takes a timer that ran out: kind 1 is WAIT, 2 is ACK, 4 is CANCEL.
    pub fn morphelai_client_timer(
        record: *mut u8,
        record_length: usize,
        kind: u8,
        ticket: u64,
        pdu: *mut u8,
        pdu_length: usize,
    ) -> u64;

    /// Asks the server to end the call.
    pub fn morphelai_client_cancel(record: *mut u8, record_length: usize, pdu: *mut u8, pdu_length: usize) -> u64;

    /// The length of a fragment of the reply that is handed up.
    pub fn morphelai_client_part(
        record: *const u8,
        record_length: usize,
        number: u16,
        slots: *const u8,
        slots_length: usize,
    ) -> u64;

    /// Makes the record a fresh server's.
    pub fn morphelai_server_fresh(
        record: *mut u8,
        record_length: usize,
        activity: *const u8,
        activity_length: usize,
        boot: u32,
        tickets: u64,
    ) -> u64;

    /// Takes a datagram that came.
    pub fn morphelai_server_arrive(
        record: *mut u8,
        record_length: usize,
        datagram: *const u8,
        datagram_length: usize,
        slots: *mut u8,
        slots_length: usize,
        pdu: *mut u8,
        pdu_length: usize,
    ) -> u64;

    /// Answers the running call with a reply of that length.
    pub fn morphelai_server_reply(record: *mut u8, record_length: usize, length: u32) -> u64;

    /// Sends the next fragment of the reply.
    pub fn morphelai_server_transmit(
        record: *mut u8,
        record_length: usize,
        message: *const u8,
        message_length: usize,
        pdu: *mut u8,
        pdu_length: usize,
    ) -> u64;

    /// Answers the running call with a fault.
    pub fn morphelai_server_fault(
        record: *mut u8,
        record_length: usize,
        status: u32,
        pdu: *mut u8,
        pdu_length: usize,
    ) -> u64;

    /// Takes a timer that ran out: kind 3 is RESEND.
    pub fn morphelai_server_timer(
        record: *mut u8,
        record_length: usize,
        kind: u8,
        ticket: u64,
        pdu: *mut u8,
        pdu_length: usize,
    ) -> u64;

    /// The length of a fragment of the request that is handed up.
    pub fn morphelai_server_part(
        record: *const u8,
        record_length: usize,
        number: u16,
        slots: *const u8,
        slots_length: usize,
    ) -> u64;

    /// Reads the header of a datagram.
    pub fn morphelai_read(datagram: *const u8, datagram_length: usize, header: *mut u8, header_length: usize) -> u64;

    /// Writes a PDU of a header and a body.
    pub fn morphelai_write(
        header: *const u8,
        header_length: usize,
        body: *const u8,
        body_length: usize,
        pdu: *mut u8,
        pdu_length: usize,
    ) -> u64;
}
