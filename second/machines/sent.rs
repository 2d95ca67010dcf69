//! The PDUs that are sent.

use crate::codec::pdu::{Header, Uuid};
use crate::records::call::Call;

/// The part of the header that is the sender's.
#[derive(Clone, Copy, Debug, PartialEq, Eq)]
pub struct Sender {
    pub activity: Uuid,
    pub boot: u32,
    pub serial: u16,
}

/// The header of a PDU of a call as either side sends it, flags and fragment number 0.
pub fn sent_header(pdu_type: u8, sender: Sender, number: u32, call: &Call) -> Header {
    Header {
        pdu_type,
        flags1: 0,
        flags2: 0,
        serial: sender.serial,
        object: call.object,
        interface: call.interface,
        activity: sender.activity,
        server_boot: sender.boot,
        interface_version: call.version,
        call_number: number,
        operation: call.operation,
        interface_hint: 65_535,
        activity_hint: 65_535,
        fragment_number: 0,
        authentication: 0,
    }
}
