//! The machine: pairs leave the queue until none waits or one of them stops the run.

use crate::machine::copy::expand_head;
use crate::machine::narrow::narrow;
use crate::machine::queue::{Pair, Queue};
use crate::machine::refuse::{refused, Asked};
use crate::machine::state::{State, Tally};
use crate::machine::walk::walk;
use crate::reply::{Reply, Stop};
use crate::words::*;

/// Solves the problem in the first n records of the table.
pub fn solve(table: &mut [u32], n: usize, solutions: &mut [u32], queue: &mut [u32]) -> Reply {
    solve_and_tally(table, n, solutions, queue).0
}

/// As `solve`, and how often the run did what.
pub fn solve_and_tally(
    table: &mut [u32],
    n: usize,
    solutions: &mut [u32],
    queue: &mut [u32],
) -> (Reply, Tally) {
    if let Some(reply) = refused(table, n, solutions, Asked::Nothing) {
        return (reply, Tally::default());
    }
    let mut state = State::start(table, n, solutions);
    let outcome = run(&mut state, n, queue);
    let reply = match outcome {
        Ok(()) => Reply::done(state.used()),
        Err(stop) => Reply::refused(stop.answer(), 0),
    };
    (reply, state.tally)
}

/// Runs the machine on a problem that was not refused; a stop takes back what was written.
pub fn run(state: &mut State, n: usize, queue: &mut [u32]) -> Result<(), Stop> {
    let most = pairs_room(queue);
    fill(queue, 0, 2 * most, 0);
    let outcome = all_pairs(state, n, &mut Queue::new(most));
    if outcome.is_err() {
        state.clear();
    }
    outcome
}

/// All equations enter in record order; then each pair in its turn is treated.
fn all_pairs(state: &mut State, n: usize, queue: &mut Queue) -> Result<(), Stop> {
    let records = (0..n as u32).map(|number| state.record(number));
    let equations: Vec<Pair> = records.filter(|r| r.tag == EQ).map(|r| (r.a, r.b)).collect();
    queue.join(equations)?;
    while let Some(pair) = queue.leave() {
        treat(state, queue, pair)?;
    }
    Ok(())
}

/// Steps 1 to 5 for one pair.
fn treat(state: &mut State, queue: &mut Queue, pair: Pair) -> Result<(), Stop> {
    let (mut left, mut right) = pair;
    loop {
        left = expand_head(state, left)?;
        right = expand_head(state, right)?;
        let (l, r) = (state.record(left), state.record(right));
        match (l.tag, r.tag) {
            (LA, LA) => {
                left = l.a;
                right = r.a;
            }
            (CA, CA) | (VA, VA) if l.a == r.a => {
                let pairs = state.list(l.b).into_iter().zip(state.list(r.b));
                return queue.join(pairs.collect());
            }
            (HA, HA) if l.a == r.a => return same_hole(state, l, r),
            (HA, _) => return walk(state, l, right),
            (_, HA) => return walk(state, r, left),
            _ => return Err(Stop::Clash),
        }
    }
}

/// Step 4: the hole is narrowed to the positions where the arguments agree.
fn same_hole(state: &mut State, l: Record, r: Record) -> Result<(), Stop> {
    let (lefts, rights) = (state.variables(l.b), state.variables(r.b));
    let agree = |&position: &usize| lefts.get(position) == rights.get(position);
    let agreeing: Vec<usize> = (0..lefts.len()).filter(agree).collect();
    if agreeing.len() < lefts.len() {
        narrow(state, l.a, &agreeing)?;
    }
    Ok(())
}
