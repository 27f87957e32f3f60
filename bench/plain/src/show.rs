//! Show: solving, then one input hole's answer with all solved holes expanded.

use crate::records::Equations;
use crate::solve::{check, parts, run};
use crate::stack::Stack;
use crate::words::*;

/// Where each context position of the present term leads, counted from the lambdas passed.
type Map = [i32; MOST_ARGUMENTS];

struct Showing<'a> {
    table: &'a [Record],
    solutions: &'a [u32],
    output: &'a mut [Record],
    next: usize,
}

/// Solves, then writes the answer of one input hole into the output.
pub fn show(
    table: &mut [u32],
    n: usize,
    solutions: &mut [u32],
    queue: &mut [u32],
    hole: usize,
    output: &mut [u32],
) -> Reply {
    let Some((table, solutions, queue)) = parts(table, n, solutions, queue) else {
        return Reply::refused(4, 0);
    };
    let mut equations = Equations::new();
    if let Some(reply) = check(&table[..n], Some(hole), &mut equations) {
        return reply;
    }
    if let Err(stop) = run(table, n, solutions, queue, equations.items()) {
        return stop.into();
    }
    let output = counted(output);
    let mut showing = Showing { table, solutions, output, next: 0 };
    let outcome = showing.hole(hole as u32);
    let used = if outcome.is_ok() { showing.next } else { 0 };
    output[used..].fill([0; 4]);
    outcome.map_or_else(Reply::from, |_| Reply::done(used))
}

impl Showing<'_> {
    fn record(&self, number: u32) -> Record {
        at(self.table, number)
    }

    fn write(&mut self, record: Record) -> Result<u32, Stop> {
        let slot = self.output.get_mut(self.next).ok_or(Stop::OutputFull)?;
        *slot = record;
        self.next += 1;
        Ok(self.next as u32 - 1)
    }

    /// The asked hole's answer; if it is unsolved, applied to its context variables in order.
    fn hole(&mut self, hole: u32) -> Result<u32, Stop> {
        let solution = self.solutions[hole as usize];
        if solution != NONE {
            return self.term(solution, &std::array::from_fn(|position| position as i32), 0, 0);
        }
        let mut context = self.record(hole)[1];
        while context != NONE {
            self.write([VA, self.next as u32, NONE, 0])?;
            context = self.record(context)[2];
        }
        let mut list = NONE;
        for variable in (0..self.next as u32).rev() {
            list = self.write([CE, variable, list, 0])?;
        }
        self.write([HA, hole, list, 0])
    }

    fn term(&mut self, term: u32, map: &Map, own: u32, all: u32) -> Result<u32, Stop> {
        let [tag, a, b, _] = self.record(term);
        let head = match tag {
            LA => {
                let body = self.term(a, map, own + 1, all + 1)?;
                return self.write([LA, body, 0, 0]);
            }
            HA if self.solutions[a as usize] != NONE => {
                let below = self.followed(b, map, own, all);
                return self.term(self.solutions[a as usize], &below, 0, all);
            }
            VA => place(a, map, own, all),
            _ => a,
        };
        let list = if b == NONE { NONE } else { self.list(b, map, own, all)? };
        self.write([tag, head, list, 0])
    }

    #[inline(always)]
    fn list(&mut self, mut cell: u32, map: &Map, own: u32, all: u32) -> Result<u32, Stop> {
        let mut elements = Stack::<u32, MOST_ARGUMENTS>::new();
        while cell != NONE {
            let [_, term, rest, _] = self.record(cell);
            elements.push(self.term(term, map, own, all)?);
            cell = rest;
        }
        let mut list = NONE;
        for &element in elements.items().iter().rev() {
            list = self.write([CE, element, list, 0])?;
        }
        Ok(list)
    }

    /// The map that follows the arguments of a solved hole.
    fn followed(&self, mut list: u32, map: &Map, own: u32, all: u32) -> Map {
        let mut below = [0; MOST_ARGUMENTS];
        for slot in below.iter_mut() {
            if list == NONE {
                break;
            }
            let [_, argument, rest, _] = self.record(list);
            *slot = place(self.record(argument)[1], map, own, all) as i32 - all as i32;
            list = rest;
        }
        below
    }
}

/// The number to write for a variable.
fn place(variable: u32, map: &Map, own: u32, all: u32) -> u32 {
    if variable < own {
        variable
    } else {
        (map[(variable - own) as usize] + all as i32) as u32
    }
}
