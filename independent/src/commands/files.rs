//! The command `files`: generated problem files and what read leaves.

use crate::commands::words::{line, reply_line};
use crate::generate::files::file_problem;
use crate::generate::Scale;
use crate::read::read;
use std::io::{self, Write};

/// Writes the blocks of `count` files.
pub fn write_files(out: &mut dyn Write, seed: u64, count: u64, scale: Scale) -> io::Result<()> {
    for index in 0..count {
        let mut given = file_problem(seed, index, scale);
        writeln!(out, "problem {index} f")?;
        line(out, "file", &given.file)?;
        line(out, "table", &given.table)?;
        let reply = read(&given.file, &mut given.table);
        reply_line(out, "read", reply)?;
        line(out, "read-table", &given.table)?;
        writeln!(out, "end")?;
    }
    Ok(())
}
