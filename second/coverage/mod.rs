//! Which rows, answers, rules and boundaries the events reach.

pub mod boundary;
pub mod bytes;
pub mod cancel;
pub mod client;
pub mod client_cancel;
pub mod client_names;
pub mod codec;
pub mod counts;
#[allow(clippy::module_inception)]
pub mod coverage;
pub mod fack;
pub mod grounds;
pub mod lent;
pub mod server;
pub mod server_cancel;
pub mod server_names;
pub mod server_pdu;
pub mod side;
pub mod side_names;
pub mod step;
pub mod system;
pub mod system_names;
