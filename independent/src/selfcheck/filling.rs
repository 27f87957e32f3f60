//! Fillings: a term for each hole, put into trees.

use crate::selfcheck::reading::Reading;
use crate::tree::{bare_variables, Head, Tree};
use crate::words::*;
use std::collections::BTreeMap;

/// A term over its context for each hole filled.
pub type Filling = BTreeMap<u32, Tree>;

/// The tree with each filled hole's term in its place, once; None if a hole is no pattern.
pub fn fill_tree(filling: &Filling, tree: &Tree) -> Option<Tree> {
    match tree {
        Tree::Lambda(body) => Some(Tree::lambda(fill_tree(filling, body)?)),
        Tree::Apply(Head::Hole(hole), arguments) => match filling.get(hole) {
            None => Some(tree.clone()),
            Some(term) => term.applied_to(&bare_variables(arguments)?),
        },
        Tree::Apply(head, arguments) => {
            let filled = arguments.iter().map(|argument| fill_tree(filling, argument));
            Some(Tree::Apply(*head, filled.collect::<Option<Vec<Tree>>>()?))
        }
    }
}

/// True if the filling makes both sides of all equations equal.
pub fn unifies(filling: &Filling, equations: &[(u32, Tree, Tree, u32)]) -> bool {
    equations.iter().all(|(_, left, right, _)| {
        let (left, right) = (fill_tree(filling, left), fill_tree(filling, right));
        left.is_some() && left == right
    })
}

/// Why a run's filling could not be read.
#[derive(Debug, PartialEq, Eq)]
pub enum Unread {
    /// A tree grew past the bound: nothing is said.
    TooLarge,
    /// Some solution is no tree, or its holes run in a circle.
    Broken,
}

/// The run's filling: each hole's solution with all solved holes expanded.
pub fn run_filling(reading: &Reading, solutions: &[u32], bound: usize) -> Result<Filling, Unread> {
    let mut filling = Filling::new();
    for hole in reading.tagged(HO) {
        expand(reading, solutions, hole, bound, &mut Vec::new(), &mut filling)?;
    }
    Ok(filling)
}

/// Expands one hole after the holes in its solution; `open` are the holes being expanded.
fn expand(
    reading: &Reading,
    solutions: &[u32],
    hole: u32,
    bound: usize,
    open: &mut Vec<u32>,
    filling: &mut Filling,
) -> Result<(), Unread> {
    if filling.contains_key(&hole) {
        return Ok(());
    }
    if open.contains(&hole) {
        return Err(Unread::Broken);
    }
    let solution = solutions.get(hole as usize).copied().unwrap_or(NONE);
    let tree = if solution == NONE {
        let entries: Vec<u32> = (0..reading.context(hole).len() as u32).collect();
        Tree::occurrence(hole, &entries)
    } else {
        let tree = reading.tree(solution).ok_or(Unread::Broken)?;
        let mut inside = Vec::new();
        tree.collect_holes(&mut inside);
        open.push(hole);
        for below in inside {
            expand(reading, solutions, below, bound, open, filling)?;
        }
        open.pop();
        fill_tree(filling, &tree).ok_or(Unread::Broken)?
    };
    if tree.size() > bound {
        return Err(Unread::TooLarge);
    }
    filling.insert(hole, tree);
    Ok(())
}
