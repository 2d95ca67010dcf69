//! Records as bytes that no machine leaves: unreadable ones, ones that are not canonical, and any.

pub mod arguments;
pub mod calls;
pub mod meaningless;
pub mod records;
pub mod scenes;
