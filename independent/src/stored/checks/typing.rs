//! Ill-typed equations: constants, variables and lambdas in every wrong way, beside right ones.

use super::Check;
use crate::stored::notation::written;

/// The constants of these problems.
const HEADS: &str = "a:i; f:i>i; g:i>i>i; b:o; r:o>i; q:(i>i)>i; U[]:i;";

/// An equation that is marked is ill-typed; one that is not has its type.
const CONSTANTS: [(&str, &str); 27] = [
    ("arguments as asked", "g(f(a), r(b)) = q(\\f(v0)) : i"),
    ("no argument where one is asked", "!f = a : i"),
    ("no argument where two are asked", "!g = a : i"),
    ("one argument where two are asked", "!g(a) = a : i"),
    ("an argument where none is asked", "!a(a) = a : i"),
    ("two arguments where one is asked", "!f(a, a) = a : i"),
    ("three arguments where two are asked", "!g(a, a, a) = a : i"),
    ("one argument where two are asked, on the right", "!a = g(a) : i"),
    ("an argument too many, on the right", "!a = f(a, a) : i"),
    ("another base type", "!b = b : i"),
    ("another base type on the left", "!b = a : i"),
    ("another base type on the right", "!a = b : i"),
    ("another final type after arguments", "!r(b) = b : o"),
    ("another final type after arguments, on the right", "!b = r(b) : o"),
    ("the argument of another type", "!f(b) = a : i"),
    ("the first argument of another type", "!g(b, a) = a : i"),
    ("the second argument of another type", "!g(a, b) = a : i"),
    ("an argument of the final type, another asked", "!r(a) = a : i"),
    ("a base term where an arrow is asked", "!q(a) = a : i"),
    ("a bare constant of arrow type as argument", "!q(f) = a : i"),
    ("a partial application as argument", "!q(g(a)) = a : i"),
    ("a lambda whose body has another type", "!q(\\b) = a : i"),
    ("a lambda too many as argument", "!q(\\\\a) = a : i"),
    ("a lambda as argument where a base type is asked", "!f(\\v0) = a : i"),
    ("a bare constant where a base argument is asked", "!f(f) = a : i"),
    ("a fault four levels down", "!f(f(f(f(b)))) = a : i"),
    ("a fault in the last of many arguments", "!g(g(a, a), g(a, f)) = a : i"),
];

const LAMBDAS: [(&str, &str); 24] = [
    ("a lambda at an arrow type", "\\v0 = \\a : i>i"),
    ("lambdas at a base type", "!\\v0 = \\v0 : i"),
    ("a lambda at a base type on the left", "!\\v0 = a : i"),
    ("a lambda at a base type on the right", "!a = \\v0 : i"),
    ("a lambda around a closed term at a base type", "!\\a = a : i"),
    ("applied constants at an arrow type", "!a = a : i>i"),
    ("bare constants of the arrow type", "!f = f : i>i"),
    ("a bare constant of the arrow type on the left", "!f = \\f(v0) : i>i"),
    ("a bare constant of the arrow type on the right", "!\\f(v0) = f : i>i"),
    ("a partial application at an arrow type", "!g(a) = \\g(a, v0) : i>i"),
    ("a hole at an arrow type", "!U = U : i>i"),
    ("a hole at an arrow type on the right", "!\\a = U : i>i"),
    ("a lambda too many on the left", "!\\\\a = \\a : i>i"),
    ("a lambda too many on the right", "!\\a = \\\\a : i>i"),
    ("a lambda too few on the left", "!\\a = \\\\a : i>i>i"),
    ("a lambda too few on the right", "!\\\\a = \\a : i>i>i"),
    ("a partial application below a lambda", "!\\g(v0) = \\\\a : i>i>i"),
    ("a bare constant below a lambda", "!\\f = \\\\a : i>i>i"),
    ("a body of another type on the left", "!\\b = \\a : i>i"),
    ("a body of another type on the right", "!\\a = \\b : i>i"),
    ("a lambda at an arrow to another type", "!\\a = \\a : i>o"),
    ("three lambdas, the last body of another type", "!\\\\\\b = \\\\\\a : i>o>i>i"),
    ("three lambdas", "\\\\\\v1 = \\\\\\b : i>o>i>o"),
    ("an arrow as domain, not nested to the right", "!\\\\a = \\\\a : (i>i)>i"),
];

const VARIABLES: [(&str, &str); 32] = [
    ("no binder at all", "!v0 = a : i"),
    ("no binder at all, on the right", "!a = v0 : i"),
    ("one past the only binder", "!\\v1 = \\a : i>i"),
    ("one past the only binder, on the right", "!\\a = \\v1 : i>i"),
    ("the largest number", "!\\v4095 = \\a : i>i"),
    ("one past three binders", "!\\\\\\v3 = \\\\\\a : i>i>i>i"),
    ("the outermost of three binders", "\\\\\\v2 = \\\\\\a : i>i>i>i"),
    ("past the binder in an argument", "!\\f(v1) = \\a : i>i"),
    ("past the binders of an argument", "!q(\\v1) = a : i"),
    ("the outer binder in an argument's lambda", "\\q(\\v1) = \\a : i>i"),
    ("after the lambda that bound it", "!g(q(\\v0), v0) = a : i"),
    ("after an inner lambda, one past", "!\\g(q(\\v1), v1) = \\a : i>i"),
    ("after an inner lambda", "\\g(q(\\v1), v0) = \\a : i>i"),
    ("before an inner lambda, one past", "!\\g(v1, q(\\v1)) = \\a : i>i"),
    ("the binder's other type", "!\\v0 = \\a : o>i"),
    ("the outer of two binders of two types", "!\\\\v1 = \\\\a : o>i>i"),
    ("the inner of two binders of two types", "!\\\\v0 = \\\\a : i>o>i"),
    ("the right ones of two types", "\\\\g(v0, r(v1)) = \\\\a : o>i>i"),
    ("two binders exchanged", "!\\\\g(v1, r(v0)) = \\\\a : o>i>i"),
    ("a base variable applied", "!\\v0(a) = \\a : i>i"),
    ("an arrow variable applied", "\\v0(a) = \\a : (i>i)>i"),
    ("an arrow variable without argument", "!\\v0 = \\a : (i>i)>i"),
    ("an arrow variable with an argument too many", "!\\v0(a, a) = \\a : (i>i)>i"),
    ("an arrow variable with an argument too few", "!\\v0(a) = \\a : (i>i>i)>i"),
    ("an arrow variable on an argument of another type", "!\\v0(b) = \\a : (i>i)>i"),
    ("an arrow variable to another final type", "!\\v0(a) = \\a : (i>o)>i"),
    ("a bare arrow variable as a constant's argument", "!\\q(v0) = \\a : (i>i)>i"),
    ("an expanded arrow variable as a constant's argument", "\\q(\\v1(v0)) = \\a : (i>i)>i"),
    ("a bare arrow variable as a variable's argument", "!\\\\v1(v0) = \\\\a : ((i>i)>i)>(i>i)>i"),
    ("an expanded one as a variable's argument", "\\\\v1(\\v1(v0)) = \\\\a : ((i>i)>i)>(i>i)>i"),
    ("a bare arrow variable at an arrow type", "!\\v0 = \\v0 : (i>i)>i>i"),
    ("a partly applied variable at an arrow type", "!\\v0(a) = \\\\a : (i>i>i)>i>i"),
];

fn entries(what: &str, list: &[(&str, &str)]) -> Vec<Check> {
    let entry = |&(name, equation): &(&str, &str)| {
        let text = format!("{HEADS}{equation}");
        let answer = if written(&text).marked.is_some() { 6 } else { 0 };
        Check::of_text(format!("typing: {what}: {name}"), &text, answer)
    };
    list.iter().map(entry).collect()
}

pub fn all() -> Vec<Check> {
    let constants = entries("constants", &CONSTANTS);
    let lambdas = entries("lambdas", &LAMBDAS);
    [constants, lambdas, entries("variables", &VARIABLES)].concat()
}
