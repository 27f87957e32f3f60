//! Kind p: one hole occurrence among many that is no pattern, or just still is one.

use crate::generate::sketch::{Equation, Hole, Sketch};
use crate::random::Random;
use crate::tree::{Head, Tree};

/// Numbers of the heads that the equation uses, and its base type.
struct Heads {
    base: usize,
    constant: u32,
    function: u32,
    binding: u32,
}

/// Adds an equation over so many variables to the sketch, mostly one that is no pattern.
pub fn repeat(sketch: &mut Sketch, random: &mut Random, width: usize) {
    let heads = heads(sketch, random);
    let binders = width + random.below(2);
    let mut scope: Vec<usize> = (0..binders).map(|_| binder(sketch, random, heads.base)).collect();
    let spare = random.chance(40);
    if spare {
        scope.push(sketch.arrow(heads.base, heads.base));
    }
    let occurrence = occurrence(sketch, random, &heads, &scope, (width, spare));
    let deep = placed(sketch, random, &heads, occurrence);
    let other = match random.below(3) {
        0 => fresh(sketch, &heads, &scope, &[]),
        _ => Tree::Apply(Head::Constant(heads.constant), Vec::new()),
    };
    let (left, right) = if random.chance(40) { (deep, other) } else { (other, deep) };
    let at = scope.iter().rev().fold(heads.base, |result, &domain| sketch.arrow(domain, result));
    let under = |tree: Tree| scope.iter().fold(tree, |body, _| Tree::lambda(body));
    let equation = Equation { left: under(left), right: under(right), at };
    let place =
        if random.chance(70) { sketch.equations.len() } else { random.below(sketch.equations.len() + 1) };
    sketch.equations.insert(place, equation);
}

fn heads(sketch: &mut Sketch, random: &mut Random) -> Heads {
    let base = sketch.some_base(random);
    let function = sketch.arrow(base, base);
    let binding = sketch.arrow(function, base);
    let first = sketch.constants.len() as u32;
    sketch.constants.extend([base, function, binding]);
    Heads { base, constant: first, function: first + 1, binding: first + 2 }
}

/// Mostly the base type, now and then a function type.
fn binder(sketch: &mut Sketch, random: &mut Random, base: usize) -> usize {
    if random.chance(85) {
        base
    } else {
        sketch.arrow(base, base)
    }
}

/// A new hole over these variables of the scope.
fn fresh(sketch: &mut Sketch, heads: &Heads, scope: &[usize], variables: &[u32]) -> Tree {
    let of = |&variable: &u32| scope.iter().rev().nth(variable as usize).copied().unwrap_or(heads.base);
    let context = variables.iter().map(of).collect();
    sketch.holes.push(Hole { context, base: heads.base, hidden: None });
    Tree::occurrence(sketch.holes.len() as u32 - 1, variables)
}

/// An occurrence over so many variables with one fault: a variable again, or no variable. If there
/// is a spare one, a function, the innermost variable is left out.
fn occurrence(
    sketch: &mut Sketch,
    random: &mut Random,
    heads: &Heads,
    scope: &[usize],
    (width, spare): (usize, bool),
) -> Tree {
    let mut variables: Vec<u32> = (u32::from(spare)..scope.len() as u32).collect();
    random.shuffle(&mut variables);
    variables.truncate(width);
    let (from, to) = pair(random, width);
    let again = random.chance(55);
    if let (true, Some(&variable)) = (again, variables.get(from)) {
        variables.iter_mut().skip(to).take(1).for_each(|slot| *slot = variable);
    }
    let tree = fresh(sketch, heads, scope, &variables);
    if again || random.chance(25) {
        return tree;
    }
    let Tree::Apply(head, mut arguments) = tree else { return tree };
    let is_base = |&variable: &u32| scope.iter().rev().nth(variable as usize) == Some(&heads.base);
    let fits = variables.get(to).is_some_and(is_base);
    let no_variable =
        no_variable(sketch, random, heads, scope, variables.get(to).copied().unwrap_or(0), fits);
    arguments.iter_mut().skip(to).take(1).for_each(|slot| *slot = no_variable.clone());
    Tree::Apply(head, arguments)
}

/// Two positions: the last two, the first and the last, or any.
fn pair(random: &mut Random, width: usize) -> (usize, usize) {
    let last = width - 1;
    match random.below(4) {
        0 => (last - 1, last),
        1 => (0, last),
        2 => (0, 1),
        _ => {
            let to = random.between(1, last);
            (random.below(to), to)
        }
    }
}

/// A term that is no bare variable, of the variable's type.
fn no_variable(
    sketch: &mut Sketch,
    random: &mut Random,
    heads: &Heads,
    scope: &[usize],
    variable: u32,
    is_base: bool,
) -> Tree {
    let constant = Tree::Apply(Head::Constant(heads.constant), Vec::new());
    if !is_base {
        let body = Tree::Apply(Head::Variable(variable + 1), vec![Tree::variable(0)]);
        return Tree::lambda(if random.chance(60) { body } else { constant });
    }
    let innermost_is_function = scope.last().is_some_and(|&of_type| of_type != heads.base);
    match (random.below(5), innermost_is_function) {
        (0 | 1, true) => Tree::Apply(Head::Variable(0), vec![constant]),
        (0, _) => constant,
        (1, _) => Tree::Apply(Head::Constant(heads.function), vec![Tree::variable(variable)]),
        (2, _) => fresh(sketch, heads, scope, &[variable]),
        _ => {
            let inner = fresh(sketch, heads, scope, &[variable]);
            let Tree::Apply(head, _) = inner else { return inner };
            Tree::Apply(head, vec![constant])
        }
    }
}

/// The occurrence at the top, below constants, below a lambda, or in another hole's argument.
fn placed(sketch: &mut Sketch, random: &mut Random, heads: &Heads, tree: Tree) -> Tree {
    match random.below(6) {
        0 | 1 => tree,
        2 | 3 => (0..random.between(1, 3))
            .fold(tree, |inner, _| Tree::Apply(Head::Constant(heads.function), vec![inner])),
        4 => {
            let shifted = tree.renamed(&|variable| Some(variable + 1)).unwrap_or(tree);
            Tree::Apply(Head::Constant(heads.binding), vec![Tree::lambda(shifted)])
        }
        _ => {
            sketch.holes.push(Hole { context: vec![heads.base], base: heads.base, hidden: None });
            let around = Head::Hole(sketch.holes.len() as u32 - 1);
            Tree::Apply(around, vec![tree])
        }
    }
}
