//! The exports of `libmorphelai`. Each slice is a pointer and a length.

extern "C" {
    pub fn morphelai_record_size() -> usize;
    pub fn morphelai_client_fresh(
        record: *mut u8,
        record_length: usize,
        activity: *const u8,
        activity_length: usize,
        tickets: u64,
    ) -> u64;
    pub fn morphelai_client_start(
        record: *mut u8,
        record_length: usize,
        idempotent: u8,
        object: *const u8,
        object_length: usize,
        interface: *const u8,
        interface_length: usize,
        version: u32,
        operation: u16,
        length: u32,
    ) -> u64;
    pub fn morphelai_client_cancel(
        record: *mut u8,
        record_length: usize,
        pdu: *mut u8,
        pdu_length: usize,
    ) -> u64;
    pub fn morphelai_client_transmit(
        record: *mut u8,
        record_length: usize,
        message: *const u8,
        message_length: usize,
        pdu: *mut u8,
        pdu_length: usize,
    ) -> u64;
    pub fn morphelai_client_arrive(
        record: *mut u8,
        record_length: usize,
        datagram: *const u8,
        datagram_length: usize,
        slots: *mut u8,
        slots_length: usize,
        pdu: *mut u8,
        pdu_length: usize,
    ) -> u64;
    pub fn morphelai_client_timer(
        record: *mut u8,
        record_length: usize,
        kind: u8,
        ticket: u64,
        pdu: *mut u8,
        pdu_length: usize,
    ) -> u64;
    pub fn morphelai_client_part(
        record: *const u8,
        record_length: usize,
        number: u16,
        slots: *const u8,
        slots_length: usize,
    ) -> u64;
    pub fn morphelai_server_fresh(
        record: *mut u8,
        record_length: usize,
        activity: *const u8,
        activity_length: usize,
        boot: u32,
        tickets: u64,
    ) -> u64;
    pub fn morphelai_server_transmit(
        record: *mut u8,
        record_length: usize,
        message: *const u8,
        message_length: usize,
        pdu: *mut u8,
        pdu_length: usize,
    ) -> u64;
    pub fn morphelai_server_arrive(
        record: *mut u8,
        record_length: usize,
        datagram: *const u8,
        datagram_length: usize,
        slots: *mut u8,
        slots_length: usize,
        pdu: *mut u8,
        pdu_length: usize,
    ) -> u64;
    pub fn morphelai_server_timer(
        record: *mut u8,
        record_length: usize,
        kind: u8,
        ticket: u64,
        pdu: *mut u8,
        pdu_length: usize,
    ) -> u64;
    pub fn morphelai_server_part(
        record: *const u8,
        record_length: usize,
        number: u16,
        slots: *const u8,
        slots_length: usize,
    ) -> u64;
    pub fn morphelai_server_reply(record: *mut u8, record_length: usize, length: u32) -> u64;
    pub fn morphelai_server_fault(
        record: *mut u8,
        record_length: usize,
        status: u32,
        pdu: *mut u8,
        pdu_length: usize,
    ) -> u64;
    pub fn morphelai_read(
        datagram: *const u8,
        datagram_length: usize,
        header: *mut u8,
        header_length: usize,
    ) -> u64;
    pub fn morphelai_write(
        header: *const u8,
        header_length: usize,
        body: *const u8,
        body_length: usize,
        pdu: *mut u8,
        pdu_length: usize,
    ) -> u64;
}
