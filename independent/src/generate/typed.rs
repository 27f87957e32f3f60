//! Kind t: typed pattern problems, solvable by their making or not.

use crate::generate::alter::{opened, opened_once, replaced, Graft};
use crate::generate::grow::{Grower, Habit};
use crate::generate::sketch::{Equation, Sketch};
use crate::random::Random;
use crate::tree::{Head, Tree};

/// What one equation is made like.
#[derive(Clone, Copy)]
enum Manner {
    Solvable,
    HoleAndSolution,
    Altered,
    TwoTerms,
    SameHole,
    TwoHoles,
    HoleInside,
    TooNarrow,
    Prune,
}

const GOOD: [Manner; 10] = [
    Manner::Prune,
    Manner::Prune,
    Manner::Solvable,
    Manner::Solvable,
    Manner::HoleAndSolution,
    Manner::HoleAndSolution,
    Manner::HoleAndSolution,
    Manner::HoleAndSolution,
    Manner::SameHole,
    Manner::TwoHoles,
];

const BAD: [Manner; 8] = [
    Manner::Altered,
    Manner::Altered,
    Manner::TwoTerms,
    Manner::TwoTerms,
    Manner::HoleInside,
    Manner::HoleInside,
    Manner::TooNarrow,
    Manner::TooNarrow,
];

/// A typed problem; `loose` is how often a hole's arguments are any terms.
pub fn typed(random: &mut Random, fuel: usize, loose: usize) -> Sketch {
    let mut sketch = Sketch::start(random);
    if loose == 0 && random.chance(35) {
        chain(&mut sketch, random, fuel);
        return sketch;
    }
    let count = random.between(1, 2 + fuel / 2);
    let spoiled = if random.chance(55) { random.below(count) } else { count };
    let habit = Habit {
        holes: random.between(15, 70),
        known: random.pick(&[50, 70, 95]).unwrap_or(70),
        deep: false,
        hidden: random.chance(85),
        loose,
    };
    let shared = if random.chance(70) { Some(binders(&mut sketch, random)) } else { None };
    for index in 0..count {
        let manner = if index == spoiled { random.pick(&BAD) } else { random.pick(&GOOD) };
        let scope = shared.clone().unwrap_or_else(|| binders(&mut sketch, random));
        let mut grower = Grower { sketch: &mut sketch, random, habit };
        let equation = equation(&mut grower, manner.unwrap_or(Manner::Solvable), scope, fuel);
        sketch.equations.push(equation);
    }
    random.shuffle(&mut sketch.equations);
    sketch
}

/// Holes whose solutions use the holes before them, an equation for each, in some order.
fn chain(sketch: &mut Sketch, random: &mut Random, fuel: usize) {
    let scope = binders(sketch, random);
    let base = sketch.some_base(random);
    let step = sketch.arrow(base, base);
    sketch.constants.push(step);
    let habit = Habit { holes: random.between(50, 90), known: 97, deep: true, hidden: true, loose: 0 };
    let links = random.between(2, 3 + fuel / 2);
    let spoiled = if random.chance(25) { random.below(links) } else { links };
    for link in 0..links {
        let mut g = Grower { sketch, random, habit };
        let kept = if g.random.chance(75) { scope.len() } else { g.random.below(scope.len() + 1) };
        let depth = if link == 0 { 1 } else { 2 + fuel / 3 };
        let hole = g.fresh_over(base, &scope, kept, depth);
        let percent = g.random.pick(&[0, 0, 0, 30]).unwrap_or(0);
        let mut other = opened_once(g.sketch, g.random, &hole, percent);
        if link == spoiled {
            let graft = if g.random.chance(50) { Graft::Any } else { Graft::Hole(g.sketch.holes.len() - 1) };
            other = replaced(&mut g, &other, base, &mut scope.clone(), graft);
        }
        let turned = g.random.chance(30);
        let (left, right) = if turned { (other, hole) } else { (hole, other) };
        let equation = closed(sketch, &scope, base, left, right);
        sketch.equations.push(equation);
    }
    if random.chance(12) {
        closed_circle(sketch, random, habit);
    }
    random.shuffle(&mut sketch.equations);
}

/// True if below its lambdas the term is a hole occurrence.
fn starts_with_hole(tree: &Tree) -> bool {
    match tree {
        Tree::Lambda(body) => starts_with_hole(body),
        Tree::Apply(head, _) => matches!(head, Head::Hole(_)),
    }
}

/// The last hole of a chain stands in the solution of an earlier one.
fn closed_circle(sketch: &mut Sketch, random: &mut Random, habit: Habit) {
    let chosen = random.below(sketch.equations.len());
    let Some(mut equation) = sketch.equations.get(chosen).cloned() else { return };
    let last = Graft::Hole(sketch.holes.len().saturating_sub(1));
    let turned = starts_with_hole(&equation.right);
    let side = if turned { &mut equation.left } else { &mut equation.right };
    let mut grower = Grower { sketch, random, habit };
    *side = replaced(&mut grower, &side.clone(), equation.at, &mut Vec::new(), last);
    if let Some(slot) = sketch.equations.get_mut(chosen) {
        *slot = equation;
    }
}

/// The equation under lambdas for the scope.
fn closed(sketch: &mut Sketch, scope: &[usize], base: usize, left: Tree, right: Tree) -> Equation {
    let at = scope.iter().rev().fold(base, |result, &domain| sketch.arrow(domain, result));
    let under = |tree: Tree| scope.iter().fold(tree, |body, _| Tree::lambda(body));
    Equation { left: under(left), right: under(right), at }
}

/// The types of a few lambdas, the innermost last.
fn binders(sketch: &mut Sketch, random: &mut Random) -> Vec<usize> {
    let mut scope = Vec::new();
    for _ in 0..random.below(5) {
        let order = random.below(3).saturating_sub(1);
        scope.push(sketch.some_type(random, order));
    }
    scope
}

/// One equation under lambdas of these types.
fn equation(grower: &mut Grower, manner: Manner, mut scope: Vec<usize>, fuel: usize) -> Equation {
    let base = grower.sketch.some_base(grower.random);
    let (left, right) = sides(grower, manner, base, &mut scope, fuel);
    let (left, right) = if grower.random.chance(50) { (left, right) } else { (right, left) };
    closed(grower.sketch, &scope, base, left, right)
}

fn sides(g: &mut Grower, manner: Manner, base: usize, scope: &mut Vec<usize>, fuel: usize) -> (Tree, Tree) {
    match manner {
        Manner::Solvable => {
            let whole = g.term(base, scope, fuel);
            let (some, more) = (g.random.between(20, 60), g.random.between(40, 100));
            (opened(g.sketch, g.random, &whole, some), opened(g.sketch, g.random, &whole, more))
        }
        Manner::HoleAndSolution => {
            let hole = g.hole(base, scope, fuel + 1);
            let percent = g.random.pick(&[0, 0, 30, 100]).unwrap_or(0);
            let solution = opened_once(g.sketch, g.random, &hole, percent);
            (hole, solution)
        }
        Manner::Altered => {
            let whole = g.term(base, scope, fuel);
            let other = opened(g.sketch, g.random, &whole, 60);
            (whole, replaced(g, &other, base, scope, Graft::Any))
        }
        Manner::TwoTerms => (g.term(base, scope, fuel), g.term(base, scope, fuel)),
        Manner::SameHole => same_hole(g, base, scope, fuel),
        Manner::TwoHoles => (g.hole(base, scope, fuel), g.hole(base, scope, fuel)),
        Manner::HoleInside => {
            let hole = g.fresh(base, scope, fuel);
            let number = g.sketch.holes.len() - 1;
            let other = rigid_term(g, base, scope, fuel + 2);
            (hole, replaced(g, &other, base, scope, Graft::Hole(number)))
        }
        Manner::TooNarrow => {
            let kept = g.random.below(scope.len().max(1));
            let hole = g.fresh_over(base, scope, kept, fuel);
            (hole, rigid_term(g, base, scope, fuel))
        }
        Manner::Prune => prune(g, base, scope, fuel),
    }
}

/// A hole that lacks variables, against a term whose holes have them.
fn prune(g: &mut Grower, base: usize, scope: &mut Vec<usize>, fuel: usize) -> (Tree, Tree) {
    let habit = g.habit;
    g.habit = Habit { holes: 85, known: 30, deep: false, hidden: false, loose: 0 };
    let kept = g.random.below(scope.len().max(1));
    let hole = g.fresh_over(base, scope, kept, fuel);
    let other = g.constant(base, scope, fuel);
    g.habit = habit;
    (hole, other)
}

/// A term with few holes.
fn rigid_term(g: &mut Grower, base: usize, scope: &mut Vec<usize>, fuel: usize) -> Tree {
    let habit = g.habit;
    g.habit.holes = habit.holes / 6;
    let tree = g.term(base, scope, fuel);
    g.habit = habit;
    tree
}

/// One hole twice, the arguments permuted among equal types.
fn same_hole(g: &mut Grower, base: usize, scope: &mut Vec<usize>, fuel: usize) -> (Tree, Tree) {
    let hole = g.hole(base, scope, fuel);
    let mut numbers = Vec::new();
    hole.collect_holes(&mut numbers);
    let again = numbers.first().and_then(|&number| g.known(number as usize, scope));
    (hole.clone(), again.unwrap_or(hole))
}
