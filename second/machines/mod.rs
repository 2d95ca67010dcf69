//! The call machines: what each event does to a record.

pub mod client;
pub mod effect;
pub mod event;
pub mod machine;
pub mod refusal;
pub mod sent;
pub mod server;
pub mod server_row;
