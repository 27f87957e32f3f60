//! What typing and the pattern rule do not ask of records that no equation reaches.

use super::Check;

const HEADS: &str = "a:i; f:i>i; b:o; q:(i>i)>i; V[i]:i; W[i,i]:i;";

/// All of these answer 0.
const FINE: [(&str, &str); 17] = [
    ("a variable without binder", "v0"),
    ("the largest variable number", "v4095"),
    ("a constant without its argument", "f"),
    ("a constant with an argument too many", "a(a)"),
    ("an argument of another type", "f(b)"),
    ("a hole without its argument", "V"),
    ("a hole with an argument too many", "V(v0, v1)"),
    ("a hole's argument of another type", "\\V(b)"),
    ("a variable twice", "\\W(v0, v0)"),
    ("a hole's argument that is no variable", "V(f(a))"),
    ("a variable applied", "v0(v0(a), a)"),
    ("a lambda applied to nothing", "\\\\\\v2"),
    ("a lambda as a constant's argument", "f(\\\\a)"),
    ("a bare arrow constant as argument", "q(f)"),
    ("faults beside an equation", "f(b); a = a : i; W(v0, v0); \\\\f"),
    ("a cell of terms alone", "VA 0 NONE; CE 13 NONE"),
    ("a cell of types alone", "CE 0 NONE"),
];

pub fn all() -> Vec<Check> {
    let entry = |(name, text): (&str, &str)| {
        Check::of_text(format!("unreached: {name}"), &format!("{HEADS}{text}"), 0)
    };
    let mut list: Vec<Check> = FINE.map(entry).to_vec();
    list.push(Check::of_text("unreached: no equation, heads only", HEADS, 0));
    list.push(Check::of_text("unreached: one base type", "BT 0", 0));
    list.push(Check::of_text("unreached: still a record rule", &format!("{HEADS}f(b); !LA 4294967295"), 5));
    list
}
