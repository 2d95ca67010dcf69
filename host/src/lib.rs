//! A safe wrapper of the proved library of the connectionless RPC protocol, for hosts in Rust.
//!
//! A [`Client`] is the console's side of an activity, a [`Server`] the controller's. Each owns the memory that it
//! lends. The host owns socket and clock: it hands in what happened, sends the PDU that comes back, and tells its stub
//! the notice. `docs/USING.md` says what a host owes.
//!
//! ```
//! use morphelai::{Call, Client, Notice, Server};
//!
//! let activity = [7; 16];
//! let mut client = Client::new(&activity, 0).unwrap();
//! let mut server = Server::new(&activity, 1, 0).unwrap();
//! let call = Call { idempotent: false, object: [0; 16], interface: [9; 16], version: 1, operation: 3 };
//! assert_eq!(client.start(&call, b"open valve 4").refusal(), None);
//! let request = client.transmit().pdu().unwrap().to_vec();
//! assert_eq!(server.arrive(&request).notice(), Some(Notice::Dispatch));
//! assert_eq!((server.operation(), server.message()), (3, b"open valve 4".to_vec()));
//! assert_eq!(server.reply(b"is open").refusal(), None);
//! let response = server.transmit().pdu().unwrap().to_vec();
//! assert_eq!(client.arrive(&response).notice(), Some(Notice::Last));
//! assert_eq!(client.message(), b"is open");
//! ```

pub mod door;
pub mod header;
pub mod programs;

mod client;
mod exports;
mod memory;
mod outcome;
mod refusal;
mod server;

pub use client::{Call, Client, ClientState, ClientTimer};
pub use header::{Header, PduType};
pub use outcome::{Cause, Notice, Outcome};
pub use refusal::{Refusal, REFUSALS};
pub use server::{Server, ServerState};

/// The size of a record.
pub const RECORD_SIZE: usize = 272;
/// The size of a header.
pub const HEADER_SIZE: usize = 80;
/// The size of the PDU buffer, and the most that a PDU has.
pub const PDU_SIZE: usize = 1472;
/// The most that the body of a fragment has.
pub const FRAGMENT_SIZE: usize = 1392;
/// The most fragments that a message has.
pub const FRAGMENTS: u16 = 32;
/// The most bytes that a message has.
pub const MESSAGE_SIZE: usize = 44_544;
/// The size of the slot buffer.
pub const SLOTS_SIZE: usize = 44_544;
