//! Solving: refusals in their order, the machine, and what is left behind.

use crate::machine::Machine;
use crate::records::{lowest_broken, Equations};
use crate::typing;
use crate::words::*;

/// The counted parts of the lent slices.
type Parts<'a> = (&'a mut [Record], &'a mut [u32], &'a mut [[u32; 2]]);

/// Solves the problem in the first n records of the table.
pub fn solve(table: &mut [u32], n: usize, solutions: &mut [u32], queue: &mut [u32]) -> Reply {
    let Some((table, solutions, queue)) = parts(table, n, solutions, queue) else {
        return Reply::refused(4, 0);
    };
    let mut equations = Equations::new();
    match check(&table[..n], None, &mut equations) {
        Some(reply) => reply,
        None => run(table, n, solutions, queue, equations.items()).map_or_else(Reply::from, Reply::done),
    }
}

/// As `solve`, without answers 5 to 7: only for problems that none of these refuses.
pub fn machine_only(table: &mut [u32], n: usize, solutions: &mut [u32], queue: &mut [u32]) -> Reply {
    let Some((table, solutions, queue)) = parts(table, n, solutions, queue) else {
        return Reply::refused(4, 0);
    };
    let mut equations = Equations::new();
    for (number, record) in table[..n].iter().enumerate() {
        if record[0] == EQ {
            equations.push(number as u16);
        }
    }
    run(table, n, solutions, queue, equations.items()).map_or_else(Reply::from, Reply::done)
}

/// R records, R solution words and C pairs; None is answer 4.
pub fn parts<'a>(
    table: &'a mut [u32],
    n: usize,
    solutions: &'a mut [u32],
    queue: &'a mut [u32],
) -> Option<Parts<'a>> {
    let table = counted(table);
    if n > table.len() {
        return None;
    }
    let solutions = solutions.get_mut(..table.len())?;
    let queue = queue.as_chunks_mut().0;
    let most = queue.len().min(MOST_PAIRS);
    Some((table, solutions, &mut queue[..most]))
}

/// Answers 5, 10, 6 and 7 in this order; fills in the equations.
pub fn check(input: &[Record], hole: Option<usize>, equations: &mut Equations) -> Option<Reply> {
    if let Some(place) = lowest_broken(input, |number| equations.push(number)) {
        return Some(Reply::refused(5, place));
    }
    if let Some(hole) = hole {
        if input.get(hole).is_none_or(|record| record[0] != HO) {
            return Some(Reply::refused(10, 0));
        }
    }
    typing::refusal(input, equations)
}

/// Runs the machine; a stop takes back what was written.
pub fn run(
    table: &mut [Record],
    n: usize,
    solutions: &mut [u32],
    queue: &mut [[u32; 2]],
    equations: &[u16],
) -> Result<usize, Stop> {
    solutions.fill(NONE);
    let mut machine = Machine::new(table, n, solutions, queue);
    let outcome = machine.run(equations);
    let next = machine.next;
    let used = if outcome.is_ok() { next } else { n };
    if outcome.is_err() {
        solutions[..next].fill(NONE);
    }
    table[used..].fill([0; 4]);
    queue.fill([0; 2]);
    outcome.map(|()| used)
}
