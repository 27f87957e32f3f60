//! Kind m: many equations, about as many as the queue has places.

use crate::generate::problem::{Kind, Made, Problem, Sizes};
use crate::random::Random;
use crate::words::*;

/// A problem with a few equations less, as many, or a few more than fit.
pub fn crowd(random: &mut Random, small: bool) -> Problem {
    let full = !small && random.chance(8);
    let places = match (full, small) {
        (true, _) => MOST_PAIRS,
        (_, true) => random.between(1, 7),
        _ => random.between(1, 60),
    };
    let count = (places + random.below(5)).saturating_sub(2);
    let made = Made { records: equations(random, count, full), witness: Vec::new() };
    let room = (made.records.len() + random.below(if small { 20 } else { 70 })).min(MOST_RECORDS);
    let queue = match full {
        true => (2 * places + random.below(8)).saturating_sub(3),
        false => 2 * places + random.below(2),
    };
    let sizes = Sizes {
        table: 4 * room + random.below(4),
        solutions: room + random.below(2),
        queue,
        output: random.below(9),
    };
    Problem::of_made(Kind::Crowd, &made, sizes, random)
}

/// Base type, constant, function, function of two, two holes; then equations, in order or last.
fn equations(random: &mut Random, count: usize, full: bool) -> Vec<Record> {
    let start = [
        (BT, 0, 0),
        (AR, 0, 0),
        (AR, 0, 1),
        (KO, 0, 0),
        (KO, 1, 0),
        (KO, 2, 0),
        (HO, NONE, 0),
        (HO, NONE, 0),
    ];
    let mut records: Vec<Record> = start.iter().map(|&(tag, a, b)| Record::new(tag, a, b, 0)).collect();
    let last = random.chance(50);
    let mut waiting = Vec::new();
    for _ in 0..count {
        let plain = full || random.chance(60);
        let shape = if plain { random.below(2) } else { random.below(4) };
        let left = side(&mut records, random, shape);
        let right = side(&mut records, random, shape);
        let equation = Record::new(EQ, left, right, 0);
        if last {
            waiting.push(equation);
        } else {
            records.push(equation);
        }
    }
    records.extend(waiting);
    records
}

/// A constant or, rarely, a hole; a function of one or of two of these.
fn side(records: &mut Vec<Record>, random: &mut Random, shape: usize) -> u32 {
    let mut leaf = |records: &mut Vec<Record>| {
        let hole = Record::new(HA, 6 + random.below(2) as u32, NONE, 0);
        let rare = random.chance(if shape == 1 { 4 } else { 1 });
        records.push(if rare { hole } else { Record::new(CA, 3, NONE, 0) });
        records.len() as u32 - 1
    };
    let count = shape.saturating_sub(1);
    if count == 0 {
        return leaf(records);
    }
    let elements: Vec<u32> = (0..count).map(|_| leaf(records)).collect();
    let mut rest = NONE;
    for element in elements.into_iter().rev() {
        records.push(Record::new(CE, element, rest, 0));
        rest = records.len() as u32 - 1;
    }
    records.push(Record::new(CA, 3 + count as u32, rest, 0));
    records.len() as u32 - 1
}
