//! What the machine does with solved holes: copies, walks through them, narrowings after each other.

use super::room::{hole_of, Room};
use super::Replay;
use crate::stored::notation::written;

/// Name, problem, new records; hole U is shown.
const STEPS: [(&str, &str, usize); 30] = [
    ("the same hole twice, without context", "U[]:i; U = U : i", 0),
    ("the same hole twice, all agreeing", "U[i,i]:i; \\\\U(v1,v0) = \\\\U(v1,v0) : i>i>i", 0),
    ("the same solved hole twice", "a:i; U[]:i; U = a : i; U = U : i", 3),
    (
        "a solved hole against itself turned round",
        "U[i,i]:i; \\\\U(v1,v0) = \\\\v0 : i>i>i; \\\\U(v1,v0) = \\\\U(v0,v1) : i>i>i",
        3,
    ),
    ("a hole on the right", "f:i>i; U[i]:i; \\f(v0) = \\U(v0) : i>i", 3),
    ("two holes, the left one solved", "U[i]:i; V[i]:i; \\V(v0) = \\U(v0) : i>i", 3),
    (
        "a copy with its arguments exchanged",
        "g:i>i>i; U[i,i]:i; \\\\U(v1,v0) = \\\\g(v0,v1) : i>i>i; \
         \\\\U(v0,v1) = \\\\g(v1,v0) : i>i>i",
        10,
    ),
    (
        "a copy that keeps its own variables",
        "g:i>i>i; q:(i>i)>i; U[i]:i; \\U(v0) = \\q(\\g(v0,v1)) : i>i; \
         \\\\U(v1) = \\\\q(\\g(v0,v2)) : i>i>i",
        16,
    ),
    ("a chain of copies", "a:i; U[]:i; V[]:i; W[]:i; U = V : i; V = W : i; W = a : i; U = a : i", 6),
    (
        "both sides copied",
        "f:i>i; U[i]:i; V[i]:i; \\U(v0) = \\f(v0) : i>i; \\V(v0) = \\f(v0) : i>i; \
         \\U(v0) = \\V(v0) : i>i",
        12,
    ),
    (
        "a narrowed hole solved",
        "a:i; U[i,i]:i; \\\\U(v1,v0) = \\\\U(v0,v1) : i>i>i; \\\\U(v1,v0) = \\\\a : i>i>i",
        4,
    ),
    (
        "narrowed twice",
        "U[i,i,i]:i; \\\\\\U(v2,v1,v0) = \\\\\\U(v2,v0,v1) : i>i>i>i; \
         \\\\\\U(v2,v1,v0) = \\\\\\U(v0,v1,v2) : i>i>i>i",
        13,
    ),
    (
        "one hole narrowed twice in a walk",
        "g:i>i>i; U[i]:i; V[i,i]:i; \\\\U(v1) = \\\\g(V(v1,v0), V(v0,v1)) : i>i>i",
        14,
    ),
    (
        "two holes narrowed in a walk",
        "g:i>i>i; U[i]:i; V[i,i]:i; W[i,i]:i; \\\\U(v1) = \\\\g(V(v1,v0), W(v0,v1)) : i>i>i",
        19,
    ),
    (
        "solved below solved",
        "f:i>i; U[i]:i; V[i]:i; W[i]:i; \\W(v0) = \\f(v0) : i>i; \\V(v0) = \\f(W(v0)) : i>i; \
         \\U(v0) = \\f(V(v0)) : i>i",
        15,
    ),
    (
        "a map that leads to a lambda",
        "q:(i>i)>i; f:i>i; U[]:i; V[i]:i; \\V(v0) = \\f(v0) : i>i; U = q(\\V(v0)) : i",
        9,
    ),
    (
        "a map through two solved holes",
        "g:i>i>i; U[i,i]:i; V[i,i]:i; \\\\V(v1,v0) = \\\\g(v0,v1) : i>i>i; \
         \\\\U(v1,v0) = \\\\g(V(v0,v1), V(v1,v0)) : i>i>i",
        18,
    ),
    ("the hole itself before its arguments", "f:i>i; U[i]:i; \\\\U(v1) = \\\\f(U(v0)) : i>i>i", 0),
    ("a function variable", "a:i; U[i>i]:i; \\U(v0) = \\v0(a) : (i>i)>i", 3),
    ("a function variable that is lost", "a:i; U[]:i; \\U = \\v0(a) : (i>i)>i", 3),
    ("variables as heads that differ", "U[]:i; \\\\v1 = \\\\v0 : i>i>i", 0),
    ("equal variables as heads, with a pair", "a:i; U[]:i; \\v0(U) = \\v0(a) : (i>i)>i", 1),
    (
        "a clash in the last of three equations",
        "a:i; f:i>i; U[]:i; U = a : i; f(U) = f(a) : i; f(U) = U : i",
        9,
    ),
    (
        "an escape only through the map",
        "f:i>i; U[i]:i; V[i,i]:i; \\\\V(v1,v0) = \\\\f(v0) : i>i>i; \
         \\\\U(v1) = \\\\V(v1,v0) : i>i>i",
        9,
    ),
    (
        "a solved hole below a lambda, over both",
        "g:i>i>i; q:(i>i)>i; U[i]:i; V[i,i]:i; \\\\V(v1,v0) = \\\\g(v1,v0) : i>i>i; \
         \\U(v0) = \\q(\\V(v1,v0)) : i>i",
        13,
    ),
    (
        "a solved hole below a lambda, exchanged",
        "g:i>i>i; q:(i>i)>i; U[i]:i; V[i,i]:i; \\\\V(v1,v0) = \\\\g(v1,v0) : i>i>i; \
         \\U(v0) = \\q(\\V(v0,v1)) : i>i",
        13,
    ),
    (
        "a lambda in a solved hole below a lambda",
        "g:i>i>i; q:(i>i)>i; U[i]:i; V[i]:i; \\V(v0) = \\q(\\g(v1,v0)) : i>i; \
         \\U(v0) = \\q(\\g(V(v1),V(v0))) : i>i",
        30,
    ),
    (
        "an unsolved hole below a solved one below a lambda",
        "q:(i>i)>i; U[i]:i; V[i,i]:i; W[i,i]:i; \\\\V(v1,v0) = \\\\W(v0,v1) : i>i>i; \
         \\U(v0) = \\q(\\V(v1,v0)) : i>i",
        13,
    ),
    (
        "narrowing among entries of several types",
        "U[i,i>i]:i; V[i,o,i>i,o,i]:i; \\\\\\\\\\U(v4,v2) = \\\\\\\\\\V(v4,v3,v2,v1,v0) : i>o>(i>i)>o>i>i",
        13,
    ),
    (
        "the same hole over several types",
        "U[i,o,i>i,i]:i; \\\\\\\\U(v3,v2,v1,v0) = \\\\\\\\U(v0,v2,v1,v3) : i>o>(i>i)>i>i",
        8,
    ),
];

pub fn all() -> Vec<Replay> {
    let entry = |&(name, text, new): &(&str, &str, usize)| {
        let problem = written(text);
        Room::of(new, 4, 8).lent(format!("steps: {name}"), &problem, hole_of(&problem, "U"))
    };
    STEPS.iter().map(entry).collect()
}
