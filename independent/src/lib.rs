//! An independent program for higher-order pattern unification over flat records.

pub mod commands;
pub mod generate;
pub mod machine;
pub mod program;
pub mod random;
pub mod read;
pub mod reply;
pub mod selfcheck;
pub mod stored;
pub mod text;
pub mod tree;
pub mod words;
pub mod write;

pub use machine::refuse::check;
pub use machine::show::show;
pub use machine::solve::solve;
pub use program::program;
pub use read::read;
pub use reply::Reply;
pub use write::write;
