//! The PDUs on the wire: header, body, cancel, fack.

pub mod body;
pub mod cancel;
pub mod fack;
pub mod pdu;
