//! Holes over many variables: one pair of equal arguments among up to sixteen.

use super::Check;

/// An equation under as many lambdas as the hole asks arguments; the arguments are given.
fn over(variables: &[usize], marked: bool) -> String {
    let count = variables.len();
    let context = vec!["i"; count].join(",");
    let arguments: Vec<String> = variables.iter().map(|variable| format!("v{variable}")).collect();
    let lambdas = "\\".repeat(count);
    let mark = if marked { "!" } else { "" };
    let at = "i>".repeat(count);
    let occurrence = format!("{mark}M({})", arguments.join(","));
    format!("a:i; M[{context}]:i; {lambdas}{occurrence} = {lambdas}a : {at}i")
}

/// The arguments v(count-1) to v0, the one at `to` like the one at `from`.
fn pair(count: usize, from: usize, to: usize) -> Check {
    let mut variables: Vec<usize> = (0..count).rev().collect();
    variables[to] = variables[from];
    let name = format!("many: of {count} arguments {from} and {to} are equal");
    Check::of_text(name, &over(&variables, true), 7)
}

fn different(count: usize) -> Check {
    let variables: Vec<usize> = (0..count).rev().collect();
    Check::of_text(format!("many: {count} different arguments"), &over(&variables, false), 0)
}

/// Sixteen variables of which one stands under no lambda.
fn past_the_binders() -> Check {
    let variables: Vec<usize> = (1..=16).rev().collect();
    let text = over(&variables, false).replace("; \\", "; !\\");
    Check::of_text("many: sixteen arguments, the first past the binders", &text, 6)
}

pub fn all() -> Vec<Check> {
    let mut list: Vec<Check> = [1, 2, 5, 15, 16].into_iter().map(different).collect();
    for from in 0..5 {
        list.extend((from + 1..5).map(|to| pair(5, from, to)));
    }
    for (from, to) in [(0, 1), (0, 15), (7, 8), (14, 15)] {
        list.push(pair(16, from, to));
    }
    list.push(past_the_binders());
    list
}
