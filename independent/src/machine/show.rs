//! Show: solving, then one input hole's answer with all solved holes expanded.

use crate::machine::map::{Map, Place, View};
use crate::machine::refuse::{refused, Asked};
use crate::machine::rename::{kept, rename, write_occurrence, AtHole, Writer};
use crate::machine::solve::run;
use crate::machine::state::State;
use crate::reply::{Reply, Stop};
use crate::words::*;

/// Writes into the output what it reads from the table.
struct Showing<'s, 'a, 'o> {
    state: &'s State<'a>,
    output: &'o mut [u32],
    room: usize,
    next: usize,
}

impl Writer for Showing<'_, '_, '_> {
    fn record(&self, number: u32) -> Record {
        self.state.record(number)
    }

    fn list(&self, first: u32) -> Vec<u32> {
        self.state.list(first)
    }

    fn write(&mut self, record: Record) -> Result<u32, Stop> {
        if self.next >= self.room {
            return Err(Stop::OutputFull);
        }
        let number = self.next;
        put(self.output, number, record);
        self.next += 1;
        Ok(number as u32)
    }

    fn at_hole(&mut self, hole: u32, arguments: &[Option<Place>], _: &View) -> Result<AtHole, Stop> {
        Ok(match self.state.solution(hole) {
            Some(solution) => AtHole::Expand(solution),
            None => AtHole::Keep(hole, kept(arguments).1),
        })
    }
}

/// Solves, then writes the answer of one input hole into the output.
pub fn show(
    table: &mut [u32],
    n: usize,
    solutions: &mut [u32],
    queue: &mut [u32],
    hole: usize,
    output: &mut [u32],
) -> Reply {
    if let Some(reply) = refused(table, n, solutions, Asked::Hole(hole)) {
        return reply;
    }
    let mut state = State::start(table, n, solutions);
    if let Err(stop) = run(&mut state, n, queue) {
        return Reply::refused(stop.answer(), 0);
    }
    match write_answer(&state, hole as u32, output) {
        Ok(used) => Reply::done(used),
        Err(stop) => {
            fill(output, 0, 4 * room(output), 0);
            Reply::refused(stop.answer(), 0)
        }
    }
}

/// Writes the hole's answer and zeroes the rest of the counted output; how many records.
fn write_answer(state: &State, hole: u32, output: &mut [u32]) -> Result<usize, Stop> {
    let room = room(output);
    fill(output, 0, 4 * room, 0);
    let positions: Vec<u32> = (0..state.list(state.record(hole).a).len() as u32).collect();
    let mut showing = Showing { state, output, room, next: 0 };
    match state.solution(hole) {
        Some(solution) => {
            rename(&mut showing, solution, View::new(Map::to_positions(&positions)))?;
        }
        None => {
            write_occurrence(&mut showing, hole, &positions)?;
        }
    }
    Ok(showing.next)
}
