//! The records of both sides, and their rules.

pub mod call;
pub mod client;
pub mod incoming;
pub mod outgoing;
pub mod record;
pub mod rule;
pub mod server;
pub mod side;
pub mod timer;
