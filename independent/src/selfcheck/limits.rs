//! Room and order: what changes, and what must not, when R, C or the equations' order change.

use crate::generate::problem::Problem;
use crate::machine::solve::solve;
use crate::reply::Reply;
use crate::words::*;

/// The reply with as much room as the limits allow, on these input records.
pub fn roomy(input: &[u32], n: usize) -> Reply {
    let mut table = input.iter().take(4 * n).copied().collect::<Vec<u32>>();
    table.resize(4 * MOST_RECORDS, 0);
    let mut solutions = vec![0; MOST_RECORDS];
    let mut queue = vec![0; 2 * MOST_PAIRS];
    solve(&mut table, n, &mut solutions, &mut queue)
}

/// Faults of a reply in little room against the reply in all the room there can be.
pub fn limit_faults(problem: &Problem, reply: Reply, most: Reply) -> Vec<String> {
    let room = (problem.table.len() / 4).min(MOST_RECORDS) as u32;
    let fine = match (most.answer, reply.answer) {
        (0, 0) => reply.used == most.used && most.used <= room,
        (0, 9) => most.used > room,
        (_, 8) => true,
        (1..=3, 9) => true,
        (1..=3, answer) => answer == most.answer,
        (9, answer) => answer == 9,
        (8, answer) => answer == 9,
        _ => false,
    };
    if fine {
        return Vec::new();
    }
    vec![format!("{reply:?} in room {room}, but {most:?} in the most room")]
}

/// The problem's input with its equations turned round, if they all come last.
pub fn reordered(problem: &Problem) -> Option<Vec<u32>> {
    let n = problem.n;
    let first = (0..n).find(|&number| get(&problem.table, number).tag == EQ)?;
    if n - first < 2 || (first..n).any(|number| get(&problem.table, number).tag != EQ) {
        return None;
    }
    let mut turned: Vec<u32> = problem.table.iter().take(4 * n).copied().collect();
    for number in first..n {
        put(&mut turned, number, get(&problem.table, first + n - 1 - number));
    }
    Some(turned)
}

/// Faults of the reply to the turned problem: solved never becomes 1, 2 or 3, nor back.
pub fn order_faults(most: Reply, turned: Reply) -> Vec<String> {
    let failed = |reply: Reply| (1..=3).contains(&reply.answer);
    if (most.answer == 0 && failed(turned)) || (turned.answer == 0 && failed(most)) {
        return vec![format!("{most:?} becomes {turned:?} with the equations turned round")];
    }
    Vec::new()
}
