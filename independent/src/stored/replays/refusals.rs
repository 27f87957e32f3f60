//! Refusals of solve and show, their order, and that nothing is written then.

use super::room::{hole_of, Room};
use super::Replay;
use crate::stored::notation::written;

const HEADS: &str = "a:i; f:i>i; b:o; U[]:i; W[i,i]:i;";

/// Name, statements; each is asked to show U and to show record 0, which is no hole.
const REFUSED: [(&str, &str); 8] = [
    ("an unknown reference", "LA 900"),
    ("equal types", "BT 105"),
    ("a second use", "U = f(a) : i; LA 10"),
    ("ill-typed", "U = b : i"),
    ("ill-typed in the second equation", "U = a : i; f = a : i"),
    ("no pattern", "\\W(v0,v0) = \\a : i>i"),
    ("no pattern on the right", "U = a : i; a = W(a,U) : i"),
    ("ill-typed and no pattern", "\\W(v0,v0) = \\a : i>i; U = b : i"),
];

/// Every kind of record but a hole, asked to be shown, and numbers past the records.
fn no_holes() -> Vec<Replay> {
    let problem = written("a:i; f:i>i; U[i]:i; \\U(v0) = \\f(v0) : i>i");
    let n = problem.records.len() as u32;
    let asked = [0, 1, 2, 4, 6, 7, 8, 9, n - 1, n, n + 3, 4096, u32::MAX];
    let entry = |hole: u32| Room::of(3, 1, 4).lent(format!("refusals: record {hole} shown"), &problem, hole);
    asked.map(entry).to_vec()
}

pub fn all() -> Vec<Replay> {
    let mut list = Vec::new();
    for (name, text) in REFUSED {
        let problem = written(&format!("{HEADS}{text}"));
        for hole in [hole_of(&problem, "U"), 0] {
            let room = Room { odd: [1, 1, 1, 1], ..Room::of(3, 2, 2) };
            list.push(room.lent(format!("refusals: {name}, record {hole} shown"), &problem, hole));
        }
    }
    list.extend(no_holes());
    list
}
