//! Step 1: a side whose head is a solved hole is replaced by a copy of the solution.

use crate::machine::map::{Map, Place, View};
use crate::machine::rename::{kept, rename, AtHole, Writer};
use crate::machine::state::State;
use crate::reply::Stop;
use crate::words::*;

/// Copies into the table, holes kept as they are.
struct Copying<'s, 'a> {
    state: &'s mut State<'a>,
}

impl Writer for Copying<'_, '_> {
    fn record(&self, number: u32) -> Record {
        self.state.record(number)
    }

    fn list(&self, first: u32) -> Vec<u32> {
        self.state.list(first)
    }

    fn write(&mut self, record: Record) -> Result<u32, Stop> {
        self.state.write(record)
    }

    fn at_hole(&mut self, hole: u32, arguments: &[Option<Place>], _: &View) -> Result<AtHole, Stop> {
        Ok(AtHole::Keep(hole, kept(arguments).1))
    }
}

/// The side after step 1: as long as its head is a solved hole, a copy takes its place.
pub fn expand_head(state: &mut State, side: u32) -> Result<u32, Stop> {
    let mut side = side;
    loop {
        let record = state.record(side);
        let solution = if record.tag == HA { state.solution(record.a) } else { None };
        let Some(solution) = solution else {
            return Ok(side);
        };
        let map = Map::to_variables(&state.variables(record.b));
        state.tally.copies += 1;
        side = rename(&mut Copying { state }, solution, View::new(map))?;
    }
}
