//! Altering grown terms: opening holes to their hidden solutions, replacing subterms.

use crate::generate::grow::Grower;
use crate::generate::sketch::Sketch;
use crate::random::Random;
use crate::tree::{bare_variables, Head, Tree};

/// The term with some of its holes opened to the solutions they were made with.
pub fn opened(sketch: &Sketch, random: &mut Random, tree: &Tree, percent: usize) -> Tree {
    match tree {
        Tree::Lambda(body) => Tree::lambda(opened(sketch, random, body, percent)),
        Tree::Apply(Head::Hole(hole), arguments) if random.chance(percent) => {
            match solution_of(sketch, *hole, arguments) {
                Some(solution) => opened(sketch, random, &solution, percent),
                None => tree.clone(),
            }
        }
        Tree::Apply(head, arguments) => {
            let opened = arguments.iter().map(|argument| opened(sketch, random, argument, percent));
            Tree::Apply(*head, opened.collect())
        }
    }
}

/// A hole occurrence opened once, and then some of the holes inside.
pub fn opened_once(sketch: &Sketch, random: &mut Random, tree: &Tree, percent: usize) -> Tree {
    let solution = match tree {
        Tree::Apply(Head::Hole(hole), arguments) => solution_of(sketch, *hole, arguments),
        _ => None,
    };
    opened(sketch, random, &solution.unwrap_or(tree.clone()), percent)
}

fn solution_of(sketch: &Sketch, hole: u32, arguments: &[Tree]) -> Option<Tree> {
    let hidden = sketch.holes.get(hole as usize)?.hidden.as_ref()?;
    hidden.applied_to(&bare_variables(arguments)?)
}

/// What takes the place of a subterm.
#[derive(Clone, Copy)]
pub enum Graft {
    /// Any grown term.
    Any,
    /// An occurrence of this hole, where it fits.
    Hole(usize),
}

/// The term with one subterm replaced by another of the same type.
pub fn replaced(
    grower: &mut Grower,
    tree: &Tree,
    of_type: usize,
    scope: &mut Vec<usize>,
    graft: Graft,
) -> Tree {
    let (domains, base) = grower.sketch.spine(of_type);
    match tree {
        Tree::Lambda(body) => {
            let Some(&domain) = domains.first() else { return tree.clone() };
            let mut rest = base;
            for &later in domains.iter().skip(1).rev() {
                rest = grower.sketch.arrow(later, rest);
            }
            scope.push(domain);
            let body = replaced(grower, body, rest, scope, graft);
            scope.pop();
            Tree::lambda(body)
        }
        Tree::Apply(head, arguments) => {
            let inner = matches!(head, Head::Constant(_) | Head::Variable(_)) && !arguments.is_empty();
            if inner && grower.random.chance(75) {
                return replaced_argument(grower, *head, arguments, scope, graft);
            }
            match graft {
                Graft::Any => grower.term(base, scope, 2),
                Graft::Hole(hole) => grafted_hole(grower, hole, base, scope).unwrap_or(tree.clone()),
            }
        }
    }
}

fn grafted_hole(grower: &mut Grower, hole: usize, base: usize, scope: &[usize]) -> Option<Tree> {
    let fits = grower.sketch.holes.get(hole)?.base == base;
    if fits {
        grower.known(hole, scope)
    } else {
        None
    }
}

fn replaced_argument(
    grower: &mut Grower,
    head: Head,
    arguments: &[Tree],
    scope: &mut Vec<usize>,
    graft: Graft,
) -> Tree {
    let of_type = match head {
        Head::Constant(constant) => grower.sketch.constants.get(constant as usize).copied(),
        Head::Variable(variable) => {
            let at = scope.len().checked_sub(1 + variable as usize);
            at.and_then(|at| scope.get(at).copied())
        }
        Head::Hole(_) => None,
    };
    let domains = of_type.map(|t| grower.sketch.spine(t).0).unwrap_or_default();
    let chosen = grower.random.below(arguments.len());
    let mut changed = arguments.to_vec();
    if let (Some(slot), Some(&domain)) = (changed.get_mut(chosen), domains.get(chosen)) {
        *slot = replaced(grower, &slot.clone(), domain, scope, graft);
    }
    Tree::Apply(head, changed)
}
