//! The door: every function that a host calls, on records lent as bytes.

pub mod invocation;
pub mod layout;
pub mod outcome;
pub mod pdu;
pub mod places;
pub mod record_bytes;
pub mod step;
