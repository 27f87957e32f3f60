//! Narrowing: an unsolved hole is solved by a new hole over fewer context positions.

use crate::machine::map::{Place, View};
use crate::machine::rename::{write_list, write_occurrence, AtHole, Writer};
use crate::machine::state::State;
use crate::reply::Stop;
use crate::words::*;

/// Writes into the table where no hole is met.
struct Plain<'s, 'a> {
    state: &'s mut State<'a>,
}

impl Writer for Plain<'_, '_> {
    fn record(&self, number: u32) -> Record {
        self.state.record(number)
    }

    fn list(&self, first: u32) -> Vec<u32> {
        self.state.list(first)
    }

    fn write(&mut self, record: Record) -> Result<u32, Stop> {
        self.state.write(record)
    }

    fn at_hole(&mut self, hole: u32, _: &[Option<Place>], _: &View) -> Result<AtHole, Stop> {
        Ok(AtHole::Keep(hole, Vec::new()))
    }
}

/// Narrows the hole to the positions; answers the new hole.
pub fn narrow(state: &mut State, hole: u32, positions: &[usize]) -> Result<u32, Stop> {
    state.tally.narrowings += 1;
    let old = state.record(hole);
    let context = state.list(old.a);
    let kept_types: Vec<u32> = positions.iter().filter_map(|&p| context.get(p).copied()).collect();
    let variables: Vec<u32> = positions.iter().map(|&position| position as u32).collect();
    let mut plain = Plain { state };
    let context = write_list(&mut plain, &kept_types)?;
    let new_hole = plain.write(Record::new(HO, context, old.b, 0))?;
    let solution = write_occurrence(&mut plain, new_hole, &variables)?;
    state.record_solution(hole, solution);
    Ok(new_hole)
}
