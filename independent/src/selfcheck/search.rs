//! A search by brute force over small fillings, constants, variables and holes alike.

use crate::selfcheck::filling::{unifies, Filling};
use crate::selfcheck::reading::Reading;
use crate::selfcheck::typed::{context_scope, head_type};
use crate::tree::{Head, Tree};
use crate::words::*;

/// Problems with more holes in their equations are not searched.
const MOST_HOLES: usize = 4;
/// The largest terms tried.
const MOST_SIZE: usize = 5;

/// All fillings tried that make every equation equal; None if the problem is too large.
pub fn unifiers(reading: &Reading, trials: usize) -> Option<Vec<Filling>> {
    let equations = reading.equations();
    let mut holes = Vec::new();
    for (_, left, right, _) in &equations {
        left.collect_holes(&mut holes);
        right.collect_holes(&mut holes);
    }
    if holes.len() > MOST_HOLES {
        return None;
    }
    let each = most_each(holes.len(), trials);
    let choices: Vec<(u32, Vec<Tree>)> =
        holes.iter().map(|&hole| (hole, small_terms(reading, hole, each))).collect();
    let count: usize = choices.iter().map(|(_, terms)| terms.len()).product();
    let fillings = (0..count).map(|index| nth_filling(&choices, index));
    Some(fillings.filter(|filling| unifies(filling, &equations)).collect())
}

/// How many terms for each hole keep the product within the trials.
fn most_each(holes: usize, trials: usize) -> usize {
    (1..=trials).take_while(|each| each.saturating_pow(holes as u32) <= trials).last().unwrap_or(1)
}

fn nth_filling(choices: &[(u32, Vec<Tree>)], index: usize) -> Filling {
    let mut left_over = index;
    let mut filling = Filling::new();
    for (hole, terms) in choices {
        if let Some(term) = terms.get(left_over % terms.len().max(1)) {
            filling.insert(*hole, term.clone());
        }
        left_over /= terms.len().max(1);
    }
    filling
}

/// The smallest terms over a hole's context.
fn small_terms(reading: &Reading, hole: u32, most: usize) -> Vec<Tree> {
    let mut scope = context_scope(reading, hole);
    let mut found = Vec::new();
    for size in 1..=MOST_SIZE {
        if found.len() < most {
            found.extend(terms(reading, reading.base(hole), &mut scope, size, most));
        }
    }
    found.truncate(most);
    found
}

/// Terms of exactly this size, lambdas not counted, at most so many.
fn terms(reading: &Reading, of_type: u32, scope: &mut Vec<u32>, size: usize, most: usize) -> Vec<Tree> {
    if let Some((domain, result)) = reading.arrow(of_type) {
        scope.push(domain);
        let bodies = terms(reading, result, scope, size, most);
        scope.pop();
        return bodies.into_iter().map(Tree::lambda).collect();
    }
    let mut found = Vec::new();
    for head in heads(reading, scope) {
        let Some((domains, last)) = head_type(reading, head, scope) else { continue };
        if last != of_type || found.len() >= most {
            continue;
        }
        match head {
            Head::Hole(hole) if size == 1 => {
                let all = different_variables(&domains, scope);
                found.extend(all.into_iter().map(|variables| Tree::occurrence(hole, &variables)));
            }
            Head::Hole(_) => {}
            _ => {
                let lists = lists(reading, &domains, scope, size - 1, most);
                found.extend(lists.into_iter().map(|arguments| Tree::Apply(head, arguments)));
            }
        }
    }
    found.truncate(most);
    found
}

fn heads(reading: &Reading, scope: &[u32]) -> Vec<Head> {
    let variables = (0..scope.len() as u32).map(Head::Variable);
    let constants = reading.tagged(KO).into_iter().map(Head::Constant);
    let holes = reading.tagged(HO).into_iter().map(Head::Hole);
    variables.chain(constants).chain(holes).collect()
}

/// Argument lists of these types and of exactly this size together.
fn lists(
    reading: &Reading,
    domains: &[u32],
    scope: &mut Vec<u32>,
    size: usize,
    most: usize,
) -> Vec<Vec<Tree>> {
    let Some((&first, rest)) = domains.split_first() else {
        return if size == 0 { vec![Vec::new()] } else { Vec::new() };
    };
    let mut found = Vec::new();
    for share in 1..=size.saturating_sub(rest.len()) {
        if found.len() >= most {
            break;
        }
        let firsts = terms(reading, first, scope, share, most);
        if firsts.is_empty() {
            continue;
        }
        let others = lists(reading, rest, scope, size - share, most);
        for tree in &firsts {
            for other in &others {
                let mut list = vec![tree.clone()];
                list.extend(other.iter().cloned());
                found.push(list);
            }
        }
    }
    found.truncate(most);
    found
}

/// All ways to give a hole different variables of its context's types, at most 24.
fn different_variables(context: &[u32], scope: &[u32]) -> Vec<Vec<u32>> {
    let mut found = vec![Vec::new()];
    for asked in context {
        let mut longer = Vec::new();
        for chosen in &found {
            for (variable, of_type) in scope.iter().rev().enumerate() {
                if of_type == asked && !chosen.contains(&(variable as u32)) && longer.len() < 24 {
                    let mut more: Vec<u32> = chosen.clone();
                    more.push(variable as u32);
                    longer.push(more);
                }
            }
        }
        found = longer;
    }
    found
}
