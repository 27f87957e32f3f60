//! The streams: numbers as u32 little-endian, answers as lines.

use crate::commands::words::{line, reply_line};
use crate::machine::refuse::check;
use crate::machine::show::show;
use crate::machine::solve::solve;
use crate::read::read;
use crate::stored::checks::checks;
use crate::stored::replays::{replays, FileReplay, Replay, Stored, WriteReplay};
use crate::write::write;
use std::io::{self, Write};

fn numbers(out: &mut dyn Write, words: &[u32]) -> io::Result<()> {
    words.iter().try_for_each(|word| out.write_all(&word.to_le_bytes()))
}

/// Each problem of the checks: n, the count of words, the words.
pub fn write_checks_in(out: &mut dyn Write) -> io::Result<()> {
    for entry in checks() {
        numbers(out, &[entry.n, entry.words.len() as u32])?;
        numbers(out, &entry.words)?;
    }
    Ok(())
}

/// For each problem of the checks a line: answer and place.
pub fn write_checks_out(out: &mut dyn Write) -> io::Result<()> {
    for entry in checks() {
        let reply = check(&entry.words, entry.n as usize);
        writeln!(out, "{} {}", reply.answer, reply.place)?;
    }
    Ok(())
}

/// Each problem of the replays: its kind, its sizes, its words.
pub fn write_replay_in(out: &mut dyn Write) -> io::Result<()> {
    for stored in replays() {
        match stored {
            Stored::Problem(p) => {
                let sizes = [&p.table, &p.solutions, &p.queue, &p.output].map(|slice| slice.len() as u32);
                numbers(out, &[1, p.n, p.hole])?;
                numbers(out, &sizes)?;
                [p.table, p.solutions, p.queue, p.output].iter().try_for_each(|slice| numbers(out, slice))?;
            }
            Stored::File(f) => {
                numbers(out, &[2, f.file.len() as u32, f.table.len() as u32])?;
                out.write_all(&f.file)?;
                out.write_all(&vec![0; f.file.len().next_multiple_of(4) - f.file.len()])?;
                numbers(out, &f.table)?;
            }
            Stored::Table(t) => {
                numbers(out, &[3, t.n, t.table.len() as u32, t.bytes as u32])?;
                numbers(out, &t.table)?;
                numbers(out, &t.words)?;
            }
        }
    }
    Ok(())
}

/// What solve and show, or read, or write, leave of each problem of the replays.
pub fn write_replay_out(out: &mut dyn Write) -> io::Result<()> {
    for stored in replays() {
        match stored {
            Stored::Problem(problem) => {
                solved_lines(out, problem.clone())?;
                shown_lines(out, problem)?;
            }
            Stored::File(file) => read_lines(out, file)?,
            Stored::Table(table) => written_lines(out, &table)?,
        }
    }
    Ok(())
}

fn solved_lines(out: &mut dyn Write, mut p: Replay) -> io::Result<()> {
    let reply = solve(&mut p.table, p.n as usize, &mut p.solutions, &mut p.queue);
    reply_line(out, "solve", reply)?;
    line(out, "table", &p.table)?;
    line(out, "solutions", &p.solutions)?;
    line(out, "queue", &p.queue)
}

fn shown_lines(out: &mut dyn Write, mut p: Replay) -> io::Result<()> {
    let (n, hole) = (p.n as usize, p.hole as usize);
    let reply = show(&mut p.table, n, &mut p.solutions, &mut p.queue, hole, &mut p.output);
    reply_line(out, "show", reply)?;
    line(out, "table", &p.table)?;
    line(out, "solutions", &p.solutions)?;
    line(out, "queue", &p.queue)?;
    line(out, "output", &p.output)
}

fn read_lines(out: &mut dyn Write, mut f: FileReplay) -> io::Result<()> {
    let reply = read(&f.file, &mut f.table);
    reply_line(out, "read", reply)?;
    line(out, "table", &f.table)
}

fn written_lines(out: &mut dyn Write, t: &WriteReplay) -> io::Result<()> {
    let (reply, words) = t.left(write);
    reply_line(out, "write", reply)?;
    line(out, "file", &words)
}
