//! Typing over trees.

use crate::selfcheck::reading::Reading;
use crate::tree::{Head, Tree};

/// True if the tree has the type in the scope; the innermost variable stands last.
pub fn has_type(reading: &Reading, tree: &Tree, of_type: u32, scope: &mut Vec<u32>) -> bool {
    match tree {
        Tree::Lambda(body) => {
            let Some((domain, result)) = reading.arrow(of_type) else { return false };
            scope.push(domain);
            let fine = has_type(reading, body, result, scope);
            scope.pop();
            fine
        }
        Tree::Apply(head, arguments) => {
            let Some((domains, last)) = head_type(reading, *head, scope) else { return false };
            if last != of_type || reading.arrow(last).is_some() || domains.len() != arguments.len() {
                return false;
            }
            let bare_allowed = matches!(head, Head::Hole(_));
            arguments.iter().zip(domains).all(|(argument, domain)| {
                (bare_allowed && is_variable_of(argument, domain, scope))
                    || has_type(reading, argument, domain, scope)
            })
        }
    }
}

/// What a head takes and what it gives.
pub fn head_type(reading: &Reading, head: Head, scope: &[u32]) -> Option<(Vec<u32>, u32)> {
    match head {
        Head::Constant(constant) => Some(reading.spine(reading.constant_type(constant))),
        Head::Variable(variable) => Some(reading.spine(variable_type(variable, scope)?)),
        Head::Hole(hole) => Some((reading.context(hole), reading.base(hole))),
    }
}

fn variable_type(variable: u32, scope: &[u32]) -> Option<u32> {
    scope.iter().rev().nth(variable as usize).copied()
}

fn is_variable_of(tree: &Tree, of_type: u32, scope: &[u32]) -> bool {
    tree.as_bare_variable().and_then(|variable| variable_type(variable, scope)) == Some(of_type)
}

/// The scope of a hole's solution: context entry 0 is variable 0, so it stands last.
pub fn context_scope(reading: &Reading, hole: u32) -> Vec<u32> {
    reading.context(hole).into_iter().rev().collect()
}
