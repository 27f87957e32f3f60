//! Writing a term anew with its variables led to their places, children first.
//!
//! Step 1's copy, the walk and show differ only in what they do at a hole and where they
//! write; all three go through here. Terms wait on an explicit stack: no depth of nesting
//! and no chain of solved holes costs call stack.

use crate::machine::map::{Place, View};
use crate::reply::Stop;
use crate::words::*;

/// What to do at a hole occurrence.
pub enum AtHole {
    /// Go on with the hole's solution, its context led where the arguments lead.
    Expand(u32),
    /// Write an occurrence of this hole with these arguments.
    Keep(u32, Vec<Place>),
}

/// The one for whom a term is written anew.
pub trait Writer {
    fn record(&self, number: u32) -> Record;
    fn list(&self, first: u32) -> Vec<u32>;
    fn write(&mut self, record: Record) -> Result<u32, Stop>;
    fn at_hole(&mut self, hole: u32, arguments: &[Option<Place>], view: &View) -> Result<AtHole, Stop>;
}

enum Task {
    /// Look at this term's head.
    Term(u32, View),
    /// The body is written: write the lambda.
    Lambda,
    /// The arguments are written: write their cells and the head record.
    Head { tag: u32, a: u32, arguments: usize },
}

/// Writes the term; answers the number of its head record.
pub fn rename<W: Writer>(writer: &mut W, term: u32, view: View) -> Result<u32, Stop> {
    let mut tasks = vec![Task::Term(term, view)];
    let mut written = Vec::new();
    while let Some(task) = tasks.pop() {
        match task {
            Task::Term(term, view) => open(writer, term, view, &mut tasks, &mut written)?,
            Task::Lambda => {
                let body = written.pop().unwrap_or(NONE);
                written.push(writer.write(Record::new(LA, body, 0, 0))?);
            }
            Task::Head { tag, a, arguments } => {
                let last = written.split_off(written.len().saturating_sub(arguments));
                written.push(write_head(writer, tag, a, &last)?);
            }
        }
    }
    Ok(written.pop().unwrap_or(NONE))
}

/// Tests a term's head and lays its children on the stack, the first on top.
fn open<W: Writer>(
    writer: &mut W,
    term: u32,
    view: View,
    tasks: &mut Vec<Task>,
    written: &mut Vec<u32>,
) -> Result<(), Stop> {
    let record = writer.record(term);
    match record.tag {
        LA => {
            tasks.push(Task::Lambda);
            tasks.push(Task::Term(record.a, view.body()));
        }
        HA => open_hole(writer, record, view, tasks, written)?,
        _ => {
            let a = match record.tag {
                VA => view.number(view.place(record.a).ok_or(Stop::Escape)?),
                _ => record.a,
            };
            let arguments = writer.list(record.b);
            tasks.push(Task::Head { tag: record.tag, a, arguments: arguments.len() });
            let waiting = arguments.into_iter().rev();
            tasks.extend(waiting.map(|argument| Task::Term(argument, view.clone())));
        }
    }
    Ok(())
}

/// At a hole occurrence all arguments are looked up before anything is written for it.
fn open_hole<W: Writer>(
    writer: &mut W,
    record: Record,
    view: View,
    tasks: &mut Vec<Task>,
    written: &mut Vec<u32>,
) -> Result<(), Stop> {
    let variables = writer.list(record.b).into_iter().map(|argument| writer.record(argument).a);
    let places: Vec<Option<Place>> = variables.map(|variable| view.place(variable)).collect();
    match writer.at_hole(record.a, &places, &view)? {
        AtHole::Expand(solution) => tasks.push(Task::Term(solution, view.below(&places))),
        AtHole::Keep(hole, kept) => {
            let numbers: Vec<u32> = kept.into_iter().map(|place| view.number(place)).collect();
            written.push(write_occurrence(writer, hole, &numbers)?);
        }
    }
    Ok(())
}

/// Writes a hole applied to bare variables.
pub fn write_occurrence<W: Writer>(writer: &mut W, hole: u32, variables: &[u32]) -> Result<u32, Stop> {
    let mut arguments = Vec::new();
    for &variable in variables {
        arguments.push(writer.write(Record::new(VA, variable, NONE, 0))?);
    }
    write_head(writer, HA, hole, &arguments)
}

/// Writes the cells of the arguments from last to first, then the head record.
fn write_head<W: Writer>(writer: &mut W, tag: u32, a: u32, arguments: &[u32]) -> Result<u32, Stop> {
    let list = write_list(writer, arguments)?;
    writer.write(Record::new(tag, a, list, 0))
}

/// Writes list cells from last to first; answers the first cell, or NONE.
pub fn write_list<W: Writer>(writer: &mut W, elements: &[u32]) -> Result<u32, Stop> {
    let mut rest = NONE;
    for &element in elements.iter().rev() {
        rest = writer.write(Record::new(CE, element, rest, 0))?;
    }
    Ok(rest)
}

/// The positions whose argument has a place, and these places.
pub fn kept(arguments: &[Option<Place>]) -> (Vec<usize>, Vec<Place>) {
    let with_place = |(position, place): (usize, &Option<Place>)| place.map(|p| (position, p));
    arguments.iter().enumerate().filter_map(with_place).unzip()
}
