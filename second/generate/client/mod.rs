//! Makes the events of a client.

pub mod author;
pub mod calls;
pub mod cancels;
pub mod cases;
pub mod defects;
pub mod events;
pub mod pdus;
pub mod records;
