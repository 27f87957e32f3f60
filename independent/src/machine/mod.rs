//! The solver itself: refusals, the machine, show.

pub mod copy;
pub mod map;
pub mod narrow;
pub mod pattern;
pub mod queue;
pub mod records;
pub mod refuse;
pub mod rename;
pub mod show;
pub mod solve;
pub mod state;
pub mod typing;
pub mod walk;
