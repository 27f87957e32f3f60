//! Show of each hole of some problems, with outputs too small, just enough and larger.

use super::room::{hole_of, Room};
use super::Replay;
use crate::stored::notation::written;

/// Name, problem, new records, each hole with the records of its answer.
type Shown = (&'static str, &'static str, usize, &'static [(&'static str, usize)]);

const SHOWN: [Shown; 6] = [
    ("unsolved holes", "U[]:i; V[i,i>i]:i; W[o]:o", 0, &[("U", 1), ("V", 5), ("W", 3)]),
    (
        "a narrowed hole",
        "f:i>i; U[i]:i; V[i,i]:i; \\\\U(v1) = \\\\f(V(v1,v0)) : i>i>i",
        10,
        &[("U", 5), ("V", 3)],
    ),
    (
        "arguments exchanged",
        "U[i,i]:i; V[i,i]:i; \\\\U(v1,v0) = \\\\V(v0,v1) : i>i>i",
        5,
        &[("U", 5), ("V", 5)],
    ),
    ("a lambda", "g:i>i>i; q:(i>i)>i; U[i]:i; \\U(v0) = \\q(\\g(v1,v0)) : i>i", 8, &[("U", 8)]),
    (
        "solved below solved",
        "f:i>i; U[i]:i; V[i]:i; \\V(v0) = \\f(v0) : i>i; \\U(v0) = \\f(V(v0)) : i>i",
        8,
        &[("U", 5), ("V", 3)],
    ),
    ("sixteen entries", "U[i,i,i,i,i,i,i,i,i,i,i,i,i,i,i,i]:i", 0, &[("U", 33)]),
];

fn sizes(need: usize) -> Vec<(usize, usize)> {
    vec![(0, 0), (need - 1, 3), (need, 2), (need + 2, 1)]
}

fn of_problem(&(what, text, new, holes): &Shown) -> Vec<Replay> {
    let problem = written(text);
    let mut list = Vec::new();
    for &(hole, need) in holes {
        for (shown, odd) in sizes(need) {
            let name = format!("shows: {what}, {hole} in {shown} records and {odd} words");
            let room = Room { odd: [0, 0, 0, odd], ..Room::of(new, 2, shown) };
            list.push(room.lent(name, &problem, hole_of(&problem, hole)));
        }
    }
    list
}

pub fn all() -> Vec<Replay> {
    SHOWN.iter().flat_map(of_problem).collect()
}
