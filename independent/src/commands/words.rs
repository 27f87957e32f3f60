//! The command `words`: generated problems and what solve and show leave, one line a slice.

use crate::generate::problem::Problem;
use crate::generate::{problem, Scale};
use crate::machine::show::show;
use crate::machine::solve::solve;
use crate::reply::Reply;
use std::io::{self, Write};

/// Writes the blocks of `count` problems.
pub fn write_words(out: &mut dyn Write, seed: u64, count: u64, scale: Scale) -> io::Result<()> {
    for index in 0..count {
        write_block(out, index, &problem(seed, index, scale))?;
    }
    Ok(())
}

fn write_block(out: &mut dyn Write, index: u64, given: &Problem) -> io::Result<()> {
    writeln!(out, "problem {index} {}", given.kind.letter())?;
    line(out, "table", &given.table)?;
    writeln!(out, "n {}", given.n)?;
    line(out, "solutions", &given.solutions)?;
    line(out, "queue", &given.queue)?;
    writeln!(out, "hole {}", given.hole)?;
    line(out, "output", &given.output)?;
    let mut p = given.clone();
    let reply = solve(&mut p.table, p.n, &mut p.solutions, &mut p.queue);
    reply_line(out, "solve", reply)?;
    line(out, "solve-table", &p.table)?;
    line(out, "solve-solutions", &p.solutions)?;
    line(out, "solve-queue", &p.queue)?;
    let mut p = given.clone();
    let reply = show(&mut p.table, p.n, &mut p.solutions, &mut p.queue, p.hole, &mut p.output);
    reply_line(out, "show", reply)?;
    line(out, "show-table", &p.table)?;
    line(out, "show-solutions", &p.solutions)?;
    line(out, "show-queue", &p.queue)?;
    line(out, "show-output", &p.output)?;
    writeln!(out, "end")
}

/// A name, then all the words.
pub fn line<T: ToString>(out: &mut dyn Write, name: &str, words: &[T]) -> io::Result<()> {
    let mut text = name.to_string();
    for word in words {
        text.push(' ');
        text.push_str(&word.to_string());
    }
    writeln!(out, "{text}")
}

/// A name, then answer, place and used.
pub fn reply_line(out: &mut dyn Write, name: &str, reply: Reply) -> io::Result<()> {
    writeln!(out, "{name} {} {} {}", reply.answer, reply.place, reply.used)
}
