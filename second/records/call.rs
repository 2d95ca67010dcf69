//! What a call is to both sides.

use crate::codec::pdu::{flags1, Header, Uuid};

/// The operation data and the idempotent mark of a call.
#[derive(Clone, Debug, PartialEq, Eq)]
pub struct Call {
    pub idempotent: bool,
    pub object: Uuid,
    pub interface: Uuid,
    pub version: u32,
    pub operation: u16,
}

impl Call {
    /// What stands where no call has been.
    pub fn none() -> Call {
        Call {
            idempotent: false,
            object: [0; 16],
            interface: [0; 16],
            version: 0,
            operation: 0,
        }
    }

    /// The call as the header of a PDU names it.
    pub fn of_header(header: &Header) -> Call {
        Call {
            idempotent: header.flags1 & flags1::IDEMPOTENT != 0,
            object: header.object,
            interface: header.interface,
            version: header.interface_version,
            operation: header.operation,
        }
    }
}
