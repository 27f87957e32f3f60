//! The same problems at every size of table and queue up to what they need, and one more.

use super::room::{hole_of, Room};
use super::Replay;
use crate::stored::notation::written;

/// A problem, the answer it comes to, and what it needs to come to it.
pub struct Need {
    pub name: &'static str,
    pub text: &'static str,
    pub answer: u32,
    pub new: usize,
    pub pairs: usize,
    /// Records in which hole U is shown, if it comes to be.
    pub shown: usize,
}

const fn need(name: &'static str, text: &'static str, needs: [usize; 4]) -> Need {
    let [answer, new, pairs, shown] = needs;
    Need { name, text, answer: answer as u32, new, pairs, shown }
}

/// Answer, new records, pairs, shown records.
pub const NEEDS: [Need; 21] = [
    need(
        "narrowing below a constant",
        "f:i>i; U[i]:i; V[i,i]:i; \\\\U(v1) = \\\\f(V(v1,v0)) : i>i>i",
        [0, 10, 1, 5],
    ),
    need("narrowing at the top", "U[i]:i; V[i,i]:i; \\\\U(v1) = \\\\V(v1,v0) : i>i>i", [0, 8, 1, 3]),
    need("narrowing to nothing", "U[i,i]:i; \\\\U(v1,v0) = \\\\U(v0,v1) : i>i>i", [0, 2, 1, 1]),
    need(
        "narrowing to one of three",
        "U[i,i,i]:i; \\\\\\U(v2,v1,v0) = \\\\\\U(v2,v0,v1) : i>i>i>i",
        [0, 5, 1, 3],
    ),
    need(
        "narrowing below a lambda",
        "q:(i>i)>i; U[]:i; V[i,i]:i; \\U = \\q(\\V(v1,v0)) : i>i",
        [0, 11, 1, 6],
    ),
    need("two arguments", "f:i>i; g:i>i>i; U[i,i]:i; \\\\U(v1,v0) = \\\\g(f(v1),v0) : i>i>i", [0, 7, 1, 7]),
    need(
        "a lambda in the solution",
        "g:i>i>i; q:(i>i)>i; U[i]:i; \\U(v0) = \\q(\\g(v1,v0)) : i>i",
        [0, 8, 1, 8],
    ),
    need("a hole by a hole", "U[i,i]:i; V[i]:i; \\\\U(v1,v0) = \\\\V(v0) : i>i>i", [0, 3, 1, 3]),
    need("a copy, then a pair", "a:i; f:i>i; U[]:i; V[]:i; U = f(a) : i; U = f(V) : i", [0, 7, 2, 3]),
    need("a hole by a hole and back", "U[]:i; V[]:i; U = V : i; V = U : i", [0, 2, 2, 1]),
    need(
        "a partial map",
        "a:i; f:i>i; U[]:i; V[i]:i; \\V(v0) = \\a : i>i; \\U = \\f(V(v0)) : i>i",
        [0, 4, 2, 3],
    ),
    need("a copy, then a clash", "a:i; f:i>i; U[]:i; U = a : i; U = f(a) : i", [1, 2, 2, 4]),
    need("a solution, then a clash", "a:i; f:i>i; g:i>i>i; U[]:i; g(U,a) = g(f(a),f(a)) : i", [1, 3, 2, 4]),
    need("a clash with pairs waiting", "a:i; f:i>i; g:i>i>i; U[]:i; g(a,U) = g(f(a),a) : i", [1, 0, 2, 4]),
    need("a record, then an escape", "a:i; g:i>i>i; U[]:i; \\U = \\g(a,v0) : i>i", [2, 1, 1, 4]),
    need(
        "an escape in a solved hole",
        "f:i>i; U[]:i; V[i]:i; \\V(v0) = \\f(v0) : i>i; \\U = \\f(V(v0)) : i>i",
        [2, 3, 2, 4],
    ),
    need("a record, then the hole itself", "a:i; g:i>i>i; U[]:i; U = g(a,U) : i", [3, 1, 1, 4]),
    need("the hole in a solved hole", "f:i>i; U[]:i; V[]:i; U = f(V) : i; V = f(U) : i", [3, 3, 2, 4]),
    need("four pairs", "a:i; g:i>i>i; U[]:i; g(g(a,a),g(a,a)) = g(g(a,a),g(a,a)) : i", [0, 0, 4, 1]),
    need(
        "three equations",
        "a:i; f:i>i; g:i>i>i; U[]:i; a = a : i; f(a) = f(a) : i; g(a,a) = g(a,a) : i",
        [0, 0, 3, 1],
    ),
    need("no equation", "a:i; U[i]:i", [0, 0, 0, 3]),
];

/// Output sizes in turn: just enough, one too few, one more.
fn shown(need: &Need, turn: usize) -> usize {
    [need.shown, need.shown.saturating_sub(1), need.shown + 1][turn % 3]
}

fn sweep(need: &Need) -> Vec<Replay> {
    let problem = written(need.text);
    let hole = hole_of(&problem, "U");
    let mut list = Vec::new();
    for new in 0..=need.new + 1 {
        let name = format!("boundaries: {}, {new} new records", need.name);
        list.push(Room::of(new, need.pairs, shown(need, new)).lent(name, &problem, hole));
    }
    for pairs in (0..=need.pairs + 1).filter(|&pairs| pairs != need.pairs) {
        let name = format!("boundaries: {}, {pairs} pairs", need.name);
        list.push(Room::of(need.new, pairs, shown(need, pairs)).lent(name, &problem, hole));
    }
    list
}

pub fn all() -> Vec<Replay> {
    NEEDS.iter().flat_map(sweep).collect()
}
