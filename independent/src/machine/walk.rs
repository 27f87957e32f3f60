//! Step 5: the walk through the other side, which becomes the hole's solution.

use crate::machine::map::{Map, Place, View};
use crate::machine::narrow::narrow;
use crate::machine::rename::{kept, rename, AtHole, Writer};
use crate::machine::state::State;
use crate::reply::Stop;
use crate::words::*;

/// Walks for the sake of one hole and writes into the table.
struct Walking<'s, 'a> {
    state: &'s mut State<'a>,
    hole: u32,
}

impl Writer for Walking<'_, '_> {
    fn record(&self, number: u32) -> Record {
        self.state.record(number)
    }

    fn list(&self, first: u32) -> Vec<u32> {
        self.state.list(first)
    }

    fn write(&mut self, record: Record) -> Result<u32, Stop> {
        self.state.write(record)
    }

    fn at_hole(&mut self, hole: u32, arguments: &[Option<Place>], view: &View) -> Result<AtHole, Stop> {
        if hole == self.hole {
            return Err(Stop::Occurs);
        }
        if let Some(solution) = self.state.solution(hole) {
            self.count(arguments, view);
            return Ok(AtHole::Expand(solution));
        }
        let (positions, places) = kept(arguments);
        if positions.len() == arguments.len() {
            return Ok(AtHole::Keep(hole, places));
        }
        self.state.tally.narrowings_in_walks += 1;
        let new_hole = narrow(self.state, hole, &positions)?;
        Ok(AtHole::Keep(new_hole, places))
    }
}

impl Walking<'_, '_> {
    /// Counts a solved hole that is walked through.
    fn count(&mut self, arguments: &[Option<Place>], view: &View) {
        let tally = &mut self.state.tally;
        let to_lambda = |place: &Option<Place>| matches!(place, Some(Place::Lambda(_)));
        tally.walked_solutions += 1;
        tally.solved_below_solved += u32::from(view.solved > 0);
        tally.lambda_places += u32::from(arguments.iter().any(to_lambda));
        tally.partial_maps += u32::from(arguments.contains(&None));
    }
}

/// Solves the unsolved hole of `occurrence` by the other side.
pub fn walk(state: &mut State, occurrence: Record, other: u32) -> Result<(), Stop> {
    let hole = occurrence.a;
    let map = Map::to_positions(&state.variables(occurrence.b));
    let solution = rename(&mut Walking { state, hole }, other, View::new(map))?;
    state.record_solution(hole, solution);
    Ok(())
}
