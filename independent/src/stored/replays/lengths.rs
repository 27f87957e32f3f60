//! Slices of odd lengths, words past the counted ones, too few solution words, n of all sizes.

use super::room::{hole_of, litter, Room};
use super::Replay;
use crate::stored::notation::{written, Written};

fn problem() -> (Written, u32) {
    let problem = written("f:i>i; U[i]:i; \\U(v0) = \\f(v0) : i>i");
    let hole = hole_of(&problem, "U");
    (problem, hole)
}

/// Words beyond what makes up records and pairs, slice by slice.
fn odd() -> Vec<Replay> {
    let (problem, hole) = problem();
    let each =
        [[1, 0, 0, 0], [2, 0, 0, 0], [3, 0, 0, 0], [0, 1, 0, 0], [0, 9, 0, 0], [0, 0, 1, 0], [0, 0, 0, 1]];
    let all = [[0, 0, 0, 2], [0, 0, 0, 3], [1, 1, 1, 1], [3, 3, 1, 3], [2, 5, 3, 2]];
    let entry = |odd: &[usize; 4]| {
        let room = Room { odd: *odd, ..Room::of(3, 1, 4) };
        room.lent(format!("lengths: odd words {odd:?}"), &problem, hole)
    };
    each.iter().chain(&all).map(entry).collect()
}

/// Fewer or more solution words than R.
fn solutions() -> Vec<Replay> {
    let (problem, hole) = problem();
    let entry = |count: usize| {
        let mut replay = Room::of(3, 1, 4).lent(format!("lengths: {count} solution words"), &problem, hole);
        replay.solutions = litter(count, 41);
        replay
    };
    let room = problem.records.len() + 3;
    [0, 1, room - 4, room - 1, room, room + 1].map(entry).to_vec()
}

/// The problem cut short, words left over that count as records, and n above R.
fn counts() -> Vec<Replay> {
    let (problem, hole) = problem();
    let records = problem.records.len() as u32;
    let entry = |n: u32| {
        let mut replay = Room::of(3, 1, 4).lent(format!("lengths: n is {n}"), &problem, hole);
        replay.n = n;
        replay
    };
    let large = [records + 3, records + 4, 4096, 4097, 1 << 30, 1 << 31, u32::MAX];
    [0, 1, 4, 8, records - 1, records + 1].into_iter().chain(large).map(entry).collect()
}

/// No words at all, or only few.
fn empty() -> Vec<Replay> {
    let mut list = Vec::new();
    for (words, n, hole) in
        [(0, 0, 0), (0, 1, 0), (0, 0, u32::MAX), (0, u32::MAX, u32::MAX), (3, 0, 0), (3, 1, 0)]
    {
        let name = format!("lengths: {words} words in each slice, n is {n}, record {hole} shown");
        let [table, solutions, queue, output] = [31, 41, 51, 61].map(|least| litter(words, least));
        list.push(Replay { name, n, hole, table, solutions, queue, output });
    }
    list
}

pub fn all() -> Vec<Replay> {
    [odd(), solutions(), counts(), empty()].concat()
}
