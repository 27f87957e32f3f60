//! Kind b, the plain cases: heads at arrow types as sides, as arguments of constants, variables and holes.

use crate::generate::sketch::{Equation, Hole, Sketch};
use crate::random::Random;
use crate::tree::{Head, Tree};

/// How many cases there are.
const CASES: usize = 17;

/// Heads made for these cases, and their types.
struct Heads {
    base: usize,
    one: usize,
    two: usize,
    binding: usize,
    constant: u32,
    hole: u32,
}

impl Heads {
    fn new(sketch: &mut Sketch, random: &mut Random) -> Heads {
        let base = sketch.some_base(random);
        let one = sketch.arrow(base, base);
        let two = sketch.arrow(base, one);
        let binding = sketch.arrow(one, base);
        let (constant, hole) = (sketch.constants.len() as u32, sketch.holes.len() as u32);
        sketch.constants.extend([base, one, two, binding]);
        for context in [vec![], vec![base], vec![one]] {
            sketch.holes.push(Hole { context, base, hidden: None });
        }
        Heads { base, one, two, binding, constant, hole }
    }

    fn a(&self) -> Tree {
        Tree::Apply(Head::Constant(self.constant), Vec::new())
    }

    fn f(&self, arguments: Vec<Tree>) -> Tree {
        Tree::Apply(Head::Constant(self.constant + 1), arguments)
    }

    fn g(&self, arguments: Vec<Tree>) -> Tree {
        Tree::Apply(Head::Constant(self.constant + 2), arguments)
    }

    fn q(&self, argument: Tree) -> Tree {
        Tree::Apply(Head::Constant(self.constant + 3), vec![argument])
    }

    fn hole(&self, which: u32, arguments: Vec<Tree>) -> Tree {
        Tree::Apply(Head::Hole(self.hole + which), arguments)
    }
}

fn v(variable: u32, arguments: Vec<Tree>) -> Tree {
    Tree::Apply(Head::Variable(variable), arguments)
}

/// Adds one equation; the last two cases have their types, one of them is no pattern.
pub fn bare(sketch: &mut Sketch, random: &mut Random) {
    let h = Heads::new(sketch, random);
    let case = random.below(CASES);
    let (short, long) = sides(&h, case);
    let scope = binders(sketch, &h, case);
    let at = scope.iter().rev().fold(result(&h, case), |result, &domain| sketch.arrow(domain, result));
    let under = |tree: Tree| scope.iter().fold(tree, |body, _| Tree::lambda(body));
    let (left, right) = match random.below(3) {
        0 => (short.clone(), short),
        1 => (short, long),
        _ => (long, short),
    };
    let place = random.below(sketch.equations.len() + 1);
    sketch.equations.insert(place, Equation { left: under(left), right: under(right), at });
}

/// The types of the lambdas around a case's sides.
fn binders(sketch: &mut Sketch, h: &Heads, case: usize) -> Vec<usize> {
    match case {
        0 | 5 | 11 | 15 | 16 => vec![h.one],
        3 => vec![h.two],
        6 => vec![sketch.arrow(h.one, h.base), h.one],
        _ => Vec::new(),
    }
}

/// The type of a case's sides under these lambdas.
fn result(h: &Heads, case: usize) -> usize {
    match case {
        4 | 5 | 7 | 14 => h.one,
        12 => h.two,
        13 => h.binding,
        _ => h.base,
    }
}

/// A side that is not eta-long, and one that is or that the first might be taken for.
fn sides(h: &Heads, case: usize) -> (Tree, Tree) {
    let x = || v(0, vec![]);
    let long = |variable: u32| Tree::lambda(v(variable + 1, vec![x()]));
    match case {
        0 => (h.q(x()), h.q(long(0))),
        1 => (h.q(h.f(vec![])), h.q(Tree::lambda(h.f(vec![x()])))),
        2 => (h.q(h.g(vec![h.a()])), h.q(Tree::lambda(h.g(vec![h.a(), x()])))),
        3 => (h.q(v(0, vec![h.a()])), h.q(Tree::lambda(v(1, vec![h.a(), x()])))),
        4 => (h.f(vec![]), Tree::lambda(h.f(vec![x()]))),
        5 => (x(), long(0)),
        6 => (v(1, vec![x()]), v(1, vec![long(0)])),
        7 => (h.hole(0, vec![]), Tree::lambda(h.a())),
        8 => (h.q(h.hole(1, vec![])), h.q(Tree::lambda(h.hole(1, vec![x()])))),
        9 => (h.f(vec![Tree::lambda(x())]), h.f(vec![h.a()])),
        10 => (Tree::lambda(x()), h.a()),
        11 => (x(), h.a()),
        12 => (h.g(vec![]), Tree::lambda(Tree::lambda(h.g(vec![v(1, vec![]), x()])))),
        13 => (Tree::lambda(h.q(x())), Tree::lambda(h.q(long(0)))),
        14 => (h.g(vec![h.a()]), Tree::lambda(h.g(vec![h.a(), x()]))),
        15 => (h.hole(2, vec![x()]), v(0, vec![h.a()])),
        _ => (h.hole(2, vec![long(0)]), v(0, vec![h.a()])),
    }
}
