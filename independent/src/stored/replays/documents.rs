//! The document's examples in the room they need, P14 and Q1 also in too little.

use super::room::{hole_of, Room};
use super::Replay;
use crate::stored::notation::written;

const HEADS: &str = "a:i; f:i>i; g:i>i>i;";

/// Name, problem, new records, pairs in the queue.
const EXAMPLES: [(&str, &str, usize, usize); 18] = [
    ("P1", "", 0, 0),
    ("P2", "f(a) = f(a) : i", 0, 1),
    ("P3", "f(a) = a : i", 0, 1),
    ("P4", "U[]:i; \\U = \\v0 : i>i", 0, 1),
    ("P5", "U[]:i; U = f(U) : i", 0, 1),
    ("P6", "U[i,i]:i; \\\\U(v1,v0) = \\\\U(v0,v1) : i>i>i", 2, 1),
    ("P7", "U[i,i]:i; \\U(v0,v0) = \\a : i>i", 2, 1),
    ("P8", "U[i,i]:i; V[i]:i; \\\\U(v1,v0) = \\\\V(v0) : i>i>i", 3, 1),
    ("P9", "U[i]:i; V[i,i]:i; \\\\U(v1) = \\\\V(v1,v0) : i>i>i", 8, 1),
    ("P10", "U[i]:i; V[i,i]:i; \\\\U(v1) = \\\\f(V(v1,v0)) : i>i>i", 10, 1),
    ("P11", "U[]:i; U = a : i; U = f(a) : i", 2, 2),
    ("P12", "U[]:i; V[]:i; U = V : i; V = U : i", 2, 2),
    ("P13", "U[i>i]:i; \\U(v0) = \\v0(a) : (i>i)>i", 3, 1),
    ("P14", "g(a,a) = g(a,a) : i", 0, 2),
    ("P14 with C = 1", "g(a,a) = g(a,a) : i", 0, 1),
    ("Q1", "U[i]:i; \\U(v0) = \\f(v0) : i>i", 3, 1),
    ("Q1 with a record less", "U[i]:i; \\U(v0) = \\f(v0) : i>i", 2, 1),
    ("Q2", "U[i]:i; \\U(f(v0)) = \\a : i>i", 3, 1),
];

pub fn all() -> Vec<Replay> {
    let entry = |(name, text, new, pairs): (&str, &str, usize, usize)| {
        let problem = written(&format!("{HEADS}{text}"));
        Room::of(new, pairs, 6).lent(format!("documents: {name}"), &problem, hole_of(&problem, "U"))
    };
    EXAMPLES.map(entry).to_vec()
}
