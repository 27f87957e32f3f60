//! Kinds e and c: slices of odd and extreme sizes; room that is just enough or just too little.

use crate::generate::problem::{Kind, Made, Problem, Sizes};
use crate::machine::solve::solve;
use crate::random::Random;
use crate::words::*;

/// A problem in slices of unusual sizes.
pub fn edge(made: &Made, random: &mut Random, small: bool) -> Problem {
    let count = made.records.len();
    let spare = if small { 60usize.saturating_sub(count) } else { 60 };
    let words = 4 * (count + random.below(spare + 1));
    let mut sizes = Sizes { table: words, solutions: words / 4, queue: 64, output: 160 };
    match random.below(9) {
        0 => sizes = Sizes { table: random.below(9), solutions: random.below(3), queue: 0, output: 0 },
        1 => sizes.table += random.below(4),
        2 => sizes.solutions = sizes.solutions.saturating_sub(1 + random.below(3)),
        3 => sizes.solutions += random.below(9),
        4 => sizes.queue = random.below(9),
        5 => sizes.output = random.below(40),
        6 if !small => {
            let table = 4 * MOST_RECORDS + random.below(14);
            let solutions = MOST_RECORDS - 1 + random.below(4);
            let queue = 2 * MOST_PAIRS - 2 + random.below(7);
            sizes = Sizes { table, solutions, queue, output: 4 * MOST_RECORDS + random.below(9) };
        }
        7 => sizes.table = (4 * count).saturating_sub(random.below(9)),
        _ => {}
    }
    let mut problem = Problem::of_made(Kind::Edge, made, sizes, random);
    match random.below(8) {
        0 => problem.n = 0,
        1 => problem.n = count.saturating_sub(random.below(4)),
        2 => problem.n = count + random.below(4),
        3 => problem.n = random.pick(&[usize::MAX, 4096, 4097, problem.table.len() / 4]).unwrap_or(0),
        _ => {}
    }
    if problem.n != count {
        problem.witness.clear();
    }
    problem
}

/// A problem with R near what it needs and a short queue.
pub fn tight(made: &Made, random: &mut Random, small: bool) -> Problem {
    let count = made.records.len();
    let used = needed(&made.records);
    let room = match used {
        Some(used) if random.chance(80) => used.saturating_sub(2).max(count) + random.below(5),
        Some(used) => random.between(count, used),
        None => count + random.below(12),
    };
    let room = if small { room.min(count.max(60)) } else { room };
    let queue = if random.chance(50) { 2 * random.below(6) + random.below(2) } else { 40 + random.below(9) };
    let sizes = Sizes {
        table: 4 * room + random.below(4),
        solutions: room + random.below(3),
        queue,
        output: 4 * random.below(30),
    };
    Problem::of_made(Kind::Tight, made, sizes, random)
}

/// The records used with all the room there can be, if the problem is solved then.
fn needed(records: &[Record]) -> Option<usize> {
    let mut table = vec![0; 4 * MOST_RECORDS];
    for (number, &record) in records.iter().enumerate() {
        put(&mut table, number, record);
    }
    let mut solutions = vec![NONE; MOST_RECORDS];
    let mut queue = vec![0; 2 * MOST_PAIRS];
    let reply = solve(&mut table, records.len(), &mut solutions, &mut queue);
    (reply.answer == 0).then_some(reply.used as usize)
}
