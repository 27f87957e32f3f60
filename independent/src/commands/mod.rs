//! The commands of the binary: what each writes, as functions of their arguments.

pub mod check_seeds;
pub mod expected;
pub mod files;
pub mod words;
pub mod writes;
