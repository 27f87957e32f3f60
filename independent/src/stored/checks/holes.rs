//! Hole occurrences that do not check: their count of arguments, each argument's type, their own type.

use super::Check;

/// The heads of these problems.
const HEADS: &str = "a:i; f:i>i; g:i>i>i; b:o; U[]:i; V[i]:i; W[i,i]:i; X[i>i]:i; O[o]:o;";

/// Answer 6 if the equation is marked, 7 if a term in it is, otherwise 0.
const TEXTS: [(&str, u32, &str); 33] = [
    ("as asked", 0, "\\\\W(v0, v1) = \\\\V(v1) : i>i>i"),
    ("no context and no argument", 0, "U = f(U) : i"),
    ("an argument where none is asked", 6, "!U(a) = a : i"),
    ("a variable where none is asked", 6, "!\\U(v0) = \\a : i>i"),
    ("no argument where one is asked", 6, "!V = a : i"),
    ("no argument where one is asked, on the right", 6, "!a = V : i"),
    ("one argument where two are asked", 6, "!\\W(v0) = \\a : i>i"),
    ("two arguments where one is asked", 6, "!\\\\V(v0, v1) = \\\\a : i>i>i"),
    ("three arguments where two are asked", 6, "!\\\\\\W(v0, v1, v2) = \\\\\\a : i>i>i>i"),
    ("another base type", 6, "!U = b : o"),
    ("another base type on the right", 6, "!b = U : o"),
    ("another base type below a lambda", 6, "!\\O(v0) = \\a : o>i"),
    ("another base type as a constant's argument", 6, "!\\f(O(v0)) = \\a : o>i"),
    ("a bare arrow variable", 0, "\\X(v0) = \\a : (i>i)>i"),
    ("a bare arrow variable of another type", 6, "!\\X(v0) = \\a : (i>i>i)>i"),
    ("a base variable where an arrow is asked", 6, "!\\X(v0) = \\a : i>i"),
    ("an arrow variable where a base type is asked", 6, "!\\V(v0) = \\a : (i>i)>i"),
    ("a variable of another base type", 6, "!\\V(v0) = \\a : o>i"),
    ("a variable without binder", 6, "!V(v0) = a : i"),
    ("a variable past the binders", 6, "!\\V(v1) = \\a : i>i"),
    ("an expanded arrow variable", 7, "\\!X(\\v1(v0)) = \\a : (i>i)>i"),
    ("an expanded constant", 7, "a = !X(\\f(v0)) : i"),
    ("a lambda", 7, "\\!X(\\v1) = \\a : i>i"),
    ("a bare constant of arrow type", 6, "!X(f) = a : i"),
    ("a partly applied constant", 6, "!X(g(a)) = a : i"),
    ("a partly applied variable", 6, "!\\X(v0(a)) = \\a : (i>i>i)>i"),
    ("an applied variable of the right type", 7, "\\!V(v0(a)) = \\a : (i>i)>i"),
    ("an applied variable of another type", 6, "!\\V(v0(a)) = \\a : (i>o)>i"),
    ("a lambda where a base type is asked", 6, "!V(\\v0) = a : i"),
    ("a lambda with a body of another type", 6, "!X(\\b) = a : i"),
    ("a term with a fault inside", 6, "!V(f(b)) = a : i"),
    ("a hole occurrence of another type", 6, "!\\V(O(v0)) = \\a : o>i"),
    ("a hole occurrence with a fault inside", 6, "!\\V(V(V)) = \\a : i>i"),
];

/// Under binders of types i, o, i>i, i the right arguments of Y are v3, v2, v1, v0; both variables
/// of type i fit at the first and the last position.
const CONTEXT: &str = "a:i; Y[i,o,i>i,i]:i;";

fn each_position() -> Vec<Check> {
    let mut list = Vec::new();
    for position in 0..4 {
        for other in 0..4 {
            let mut arguments = [3, 2, 1, 0];
            let right = arguments[position];
            arguments[position] = other;
            let same_type = [right, other].iter().all(|variable| [0, 3].contains(variable));
            let [s, t, u, v] = arguments;
            let (statement, term, answer) = match (right == other, same_type) {
                (true, _) => ("", "", 0),
                (_, true) => ("", "!", 7),
                _ => ("!", "", 6),
            };
            let equation = format!("{statement}\\\\\\\\{term}Y(v{s}, v{t}, v{u}, v{v}) = \\\\\\\\a");
            let text = format!("{CONTEXT}{equation} : i>o>(i>i)>i>i");
            let name = format!("holes: v{other} at position {position} where v{right} fits");
            list.push(Check::of_text(name, &text, answer));
        }
    }
    list
}

pub fn all() -> Vec<Check> {
    let entry = |&(name, answer, equation): &(&str, u32, &str)| {
        Check::of_text(format!("holes: {name}"), &format!("{HEADS}{equation}"), answer)
    };
    [TEXTS.iter().map(entry).collect(), each_position()].concat()
}
