//! Generality: every solution found elsewhere is an instance of the run's filling.

use crate::selfcheck::filling::Filling;
use crate::tree::{bare_variables, Head, Tree};

/// True if some filling of the holes left turns the run's terms into the other ones.
pub fn is_instance(run: &Filling, other: &Filling) -> bool {
    let mut left = Filling::new();
    other.iter().all(|(hole, target)| match run.get(hole) {
        Some(pattern) => matches(pattern, target, &mut left),
        None => false,
    })
}

/// Finds the terms for the holes of the pattern that make it the target.
fn matches(pattern: &Tree, target: &Tree, left: &mut Filling) -> bool {
    match (pattern, target) {
        (Tree::Apply(Head::Hole(hole), arguments), _) => match inverse(arguments, target) {
            None => false,
            Some(term) => *left.entry(*hole).or_insert_with(|| term.clone()) == term,
        },
        (Tree::Lambda(pattern), Tree::Lambda(target)) => matches(pattern, target, left),
        (Tree::Apply(head, patterns), Tree::Apply(other, targets)) => {
            head == other
                && patterns.len() == targets.len()
                && patterns.iter().zip(targets).all(|(pattern, target)| matches(pattern, target, left))
        }
        _ => false,
    }
}

/// The target over the positions of the arguments, if it has no other variable.
fn inverse(arguments: &[Tree], target: &Tree) -> Option<Tree> {
    let variables = bare_variables(arguments)?;
    let position = |variable: u32| variables.iter().position(|&known| known == variable);
    target.renamed(&|variable| position(variable).map(|at| at as u32))
}
