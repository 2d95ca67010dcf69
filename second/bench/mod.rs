//! The bench: steps this implementation and another one side by side, and compares all that they
//! leave.

#[allow(clippy::module_inception)]
pub mod bench;
pub mod difference;
pub mod findings;
pub mod library;
pub mod memory;
pub mod message;
pub mod post;
pub mod words;
