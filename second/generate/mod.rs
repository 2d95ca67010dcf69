//! Makes the events: PDUs, records and scenes of them.

pub mod arriving;
pub mod author;
pub mod bytes;
pub mod cancel;
pub mod client;
pub mod codec;
pub mod datagram;
pub mod defect;
pub mod defects;
pub mod fragment;
pub mod made;
pub mod parts;
pub mod random;
pub mod scenes;
pub mod server;
pub mod turn;
