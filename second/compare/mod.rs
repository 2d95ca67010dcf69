//! The comparison with the proved library: its exports, what is played, and the report.

pub mod archive;
pub mod exports;
pub mod play;
pub mod report;
