//! The same machine in plain, unverified Rust, written for speed: what the proved library is measured against.

mod copy;
mod machine;
mod narrow;
mod read;
mod records;
mod show;
mod solve;
mod stack;
mod types;
mod typing;
mod walk;
mod words;
mod write;

pub use read::read;
pub use show::show;
pub use solve::{machine_only, solve};
pub use words::Reply;
pub use write::{write, write_only};
