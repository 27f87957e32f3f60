//! The command `writes`: generated tables and the file that write leaves.

use crate::commands::words::{line, reply_line};
use crate::generate::writes::write_problem;
use crate::generate::Scale;
use crate::write::write;
use std::io::{self, Write};

/// Writes the blocks of `count` tables.
pub fn write_writes(out: &mut dyn Write, seed: u64, count: u64, scale: Scale) -> io::Result<()> {
    for index in 0..count {
        let mut given = write_problem(seed, index, scale);
        writeln!(out, "problem {index} {}", given.kind.letter())?;
        line(out, "table", &given.table)?;
        writeln!(out, "n {}", given.n)?;
        line(out, "file", &given.file)?;
        let reply = write(&given.table, given.n, &mut given.file);
        reply_line(out, "write", reply)?;
        line(out, "write-file", &given.file)?;
        writeln!(out, "end")?;
    }
    Ok(())
}
