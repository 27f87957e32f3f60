//! Stored problems: two fixed lists and the streams they are written as.

pub mod checks;
pub mod notation;
pub mod replays;
pub mod stream;
