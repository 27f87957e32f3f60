//! Step 5: the walk through the other side, which becomes the hole's solution.

use crate::machine::Machine;
use crate::narrow::Numbers;
use crate::words::*;

/// An argument without a place.
const NOWHERE: i32 = i32::MAX;

/// Outside any solved hole: each position's variable. Below one: where each position of the context leads, counted from
/// the lambdas passed (those have numbers below 0).
struct Map {
    places: [i32; MOST_ARGUMENTS],
    count: usize,
    /// The hole that is solved by the walk.
    hole: u32,
}

impl Machine<'_> {
    /// Walks the other side and records the result as the solution of the occurrence's hole.
    pub fn solve_by(&mut self, occurrence: Record, other: u32) -> Result<(), Stop> {
        let [_, hole, mut list, _] = occurrence;
        let mut map = Map { places: [0; MOST_ARGUMENTS], count: 0, hole };
        while list != NONE {
            let [_, argument, rest, _] = self.record(list);
            map.places[map.count] = self.record(argument)[1] as i32;
            map.count += 1;
            list = rest;
        }
        self.solutions[hole as usize] = self.walk::<false>(other, &map, 0, 0)?;
        Ok(())
    }

    /// `own` counts the lambdas passed inside the present term, `all` those since the start.
    fn walk<const BELOW: bool>(&mut self, term: u32, map: &Map, own: u32, all: u32) -> Result<u32, Stop> {
        let [tag, a, b, _] = self.record(term);
        let head = match tag {
            LA => {
                let body = self.walk::<BELOW>(a, map, own + 1, all + 1)?;
                return self.write([LA, body, 0, 0]);
            }
            HA => return self.walk_hole::<BELOW>(a, b, map, own, all),
            VA => place::<BELOW>(a, map, own, all).ok_or(Stop::Escape)?,
            _ => a,
        };
        let list = if b == NONE { NONE } else { self.walk_list::<BELOW>(b, map, own, all)? };
        self.write([tag, head, list, 0])
    }

    /// Arguments in order, then their cells from last to first.
    #[inline(always)]
    fn walk_list<const BELOW: bool>(&mut self, mut cell: u32, map: &Map, own: u32, all: u32) -> Result<u32, Stop> {
        let mut elements = Numbers::new();
        while cell != NONE {
            let [_, term, rest, _] = self.record(cell);
            elements.push(self.walk::<BELOW>(term, map, own, all)?);
            cell = rest;
        }
        self.write_cells(elements.items())
    }

    #[inline(never)]
    fn walk_hole<const BELOW: bool>(
        &mut self,
        hole: u32,
        list: u32,
        map: &Map,
        own: u32,
        all: u32,
    ) -> Result<u32, Stop> {
        if hole == map.hole {
            return Err(Stop::Occurs);
        }
        let solution = self.solutions[hole as usize];
        if solution == NONE {
            return self.walk_unsolved::<BELOW>(hole, list, map, own, all);
        }
        let followed = self.followed::<BELOW>(list, map, own, all);
        self.walk::<true>(solution, &followed, 0, all)
    }

    /// The map that follows the arguments of a solved hole.
    #[inline(always)]
    fn followed<const BELOW: bool>(&self, mut list: u32, map: &Map, own: u32, all: u32) -> Map {
        let mut followed = Map { places: [NOWHERE; MOST_ARGUMENTS], count: 0, hole: map.hole };
        while list != NONE {
            let [_, argument, rest, _] = self.record(list);
            if let Some(number) = place::<BELOW>(self.record(argument)[1], map, own, all) {
                followed.places[followed.count] = number as i32 - all as i32;
            }
            followed.count += 1;
            list = rest;
        }
        followed
    }

    /// Keeps the positions whose argument has a place, narrows if any is dropped, writes an occurrence.
    #[inline(always)]
    fn walk_unsolved<const BELOW: bool>(
        &mut self,
        mut hole: u32,
        mut list: u32,
        map: &Map,
        own: u32,
        all: u32,
    ) -> Result<u32, Stop> {
        let mut positions = Numbers::new();
        let mut places = Numbers::new();
        let mut count = 0;
        while list != NONE {
            let [_, argument, rest, _] = self.record(list);
            if let Some(number) = place::<BELOW>(self.record(argument)[1], map, own, all) {
                positions.push(count);
                places.push(number);
            }
            count += 1;
            list = rest;
        }
        if positions.items().len() < count as usize {
            hole = self.narrow(hole, positions.items())?;
        }
        self.write_occurrence(hole, places.items())
    }
}

/// The number to write for a variable, if it has a place.
#[inline(always)]
fn place<const BELOW: bool>(variable: u32, map: &Map, own: u32, all: u32) -> Option<u32> {
    if variable < own {
        return Some(variable);
    }
    let outside = variable - own;
    if BELOW {
        let place = map.places[outside as usize];
        (place != NOWHERE).then(|| (place + all as i32) as u32)
    } else {
        let position = map.places[..map.count].iter().position(|&met| met == outside as i32)?;
        Some(position as u32 + all)
    }
}
