//! Makes the events of a server.

pub mod author;
pub mod calls;
pub mod cancels;
pub mod cases;
pub mod defects;
pub mod events;
pub mod pdus;
pub mod records;
pub mod rows;
