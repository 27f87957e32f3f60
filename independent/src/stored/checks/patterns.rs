//! Occurrences that are no patterns, in every position; the place is the lowest of them.

use super::Check;
use crate::stored::notation::written;

/// The heads of these problems.
const HEADS: &str = "a:i; f:i>i; q:(i>i)>i; V[i]:i; W[i,i]:i; Z[i,i,i]:i;";

/// Answer 7 at the mark, 0 without a mark.
const TEXTS: [(&str, &str); 31] = [
    ("two different variables", "\\\\W(v0, v1) = \\\\a : i>i>i"),
    ("three different variables", "\\\\\\Z(v2, v0, v1) = \\\\\\a : i>i>i>i"),
    ("the same broken occurrence on both sides", "\\!W(v0, v0) = \\W(v0, v0) : i>i"),
    ("a variable twice on the left", "\\!W(v0, v0) = \\a : i>i"),
    ("a variable twice on the right", "\\a = \\!W(v0, v0) : i>i"),
    ("the outer variable twice", "\\\\!W(v1, v1) = \\\\a : i>i>i"),
    ("first and second equal", "\\\\!Z(v0, v0, v1) = \\\\a : i>i>i"),
    ("second and third equal", "\\\\!Z(v1, v0, v0) = \\\\a : i>i>i"),
    ("first and third equal", "\\\\!Z(v0, v1, v0) = \\\\a : i>i>i"),
    ("all three equal", "\\\\!Z(v0, v0, v0) = \\\\a : i>i>i"),
    ("a constant", "a = !V(a) : i"),
    ("an application", "\\!V(f(v0)) = \\a : i>i"),
    ("an application of a function to a lambda", "a = !V(q(\\v0)) : i"),
    ("a constant at the first position", "\\!W(a, v0) = \\a : i>i"),
    ("a constant at the second position", "\\!W(v0, a) = \\a : i>i"),
    ("an application at the last of three", "\\\\!Z(v0, v1, f(v0)) = \\\\a : i>i>i"),
    ("a whole occurrence as argument", "\\!V(V(v0)) = \\a : i>i"),
    ("a broken occurrence as argument", "\\V(!W(v0, v0)) = \\a : i>i"),
    ("two broken occurrences as arguments", "\\W(!V(a), V(a)) = \\a : i>i"),
    ("a broken second argument after a whole one", "\\W(V(v0), !V(a)) = \\a : i>i"),
    ("three nested, the innermost broken", "a = V(V(!V(a))) : i"),
    ("three nested, the innermost whole", "\\V(!V(V(v0))) = \\a : i>i"),
    ("below an application in an argument", "\\V(f(!V(a))) = \\a : i>i"),
    ("below a lambda in an argument", "\\V(q(\\!V(a))) = \\a : i>i"),
    ("below a lambda, whole, its argument broken", "\\!V(q(\\V(v1))) = \\a : i>i"),
    ("inside a constant's argument", "\\f(f(!W(v0, v0))) = \\a : i>i"),
    ("inside a lambda of a constant's argument", "q(\\!W(v0, v0)) = a : i"),
    ("two variables of two lambdas", "\\q(\\W(v0, v1)) = \\a : i>i"),
    ("one variable through two lambdas", "\\q(\\!W(v1, v1)) = \\a : i>i"),
    ("only on the right of the third equation", "a = a : i; \\V(v0) = \\a : i>i; a = f(!V(a)) : i"),
    ("in both equations", "\\a = \\!W(v0, v0) : i>i; \\W(v0, v0) = \\a : i>i"),
];

/// Two equations whose order is not that of their terms: the lowest occurrence stands in the later one.
fn turned_round() -> Check {
    let text = "BT 0; AR 0 0; KO 0; CE 0 NONE; CE 0 3; HO 4 0; \
                VA 0 NONE; VA 0 NONE; CE 7 NONE; CE 6 8; !HA 5 9; LA 10; \
                VA 0 NONE; VA 0 NONE; CE 13 NONE; CE 12 14; HA 5 15; LA 16; \
                CA 2 NONE; LA 18; CA 2 NONE; LA 20; EQ 17 19 1; EQ 11 21 1";
    Check::of_text("patterns: the lowest occurrence in the later equation", text, 7)
}

/// The right side laid before the left one.
fn right_below_left() -> Check {
    let text = "BT 0; KO 0; CE 0 NONE; HO 2 0; \
                CA 1 NONE; CE 4 NONE; !HA 3 5; CA 1 NONE; CE 7 NONE; HA 3 8; EQ 9 6 0";
    Check::of_text("patterns: the lowest occurrence on the right", text, 7)
}

/// An occurrence of the second equation lies below all those of the first.
fn low_but_reached_late() -> Check {
    let text = "BT 0; KO 0; CE 0 NONE; HO 2 0; CA 1 NONE; CE 4 NONE; !HA 3 5; \
                CA 1 NONE; CE 7 NONE; HA 3 8; CA 1 NONE; CE 9 NONE; HA 3 11; \
                EQ 12 10 0; CA 1 NONE; EQ 6 14 0";
    Check::of_text("patterns: the lowest occurrence in a second equation", text, 7)
}

pub fn all() -> Vec<Check> {
    let mut list = Vec::new();
    for (name, equation) in TEXTS {
        let text = format!("{HEADS}{equation}");
        let answer = if written(&text).marked.is_some() { 7 } else { 0 };
        list.push(Check::of_text(format!("patterns: {name}"), &text, answer));
    }
    list.extend([turned_round(), right_below_left(), low_but_reached_late()]);
    list
}
