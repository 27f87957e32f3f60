//! Kind b: one subterm that is not eta-long: a head at an arrow type, or a lambda at a base type.

use crate::generate::grow::{Grower, Habit};
use crate::generate::sketch::{Shape, Sketch};
use crate::random::Random;
use crate::tree::{Head, Tree};

const HABIT: Habit = Habit { holes: 10, known: 90, deep: false, hidden: false, loose: 0 };

/// Goes to one subterm and shortens it.
struct Shortener<'a> {
    sketch: &'a mut Sketch,
    random: &'a mut Random,
    /// Subterms to pass before the one to shorten; None when it is done.
    left: Option<usize>,
}

/// Shortens one subterm of one side of one equation.
pub fn shorten(sketch: &mut Sketch, random: &mut Random) {
    let chosen = random.below(sketch.equations.len());
    let Some(mut equation) = sketch.equations.get(chosen).cloned() else { return };
    let side = if random.chance(50) { &mut equation.left } else { &mut equation.right };
    let left = Some(random.below(side.size()));
    let mut shortener = Shortener { sketch, random, left };
    *side = shortener.tree(&side.clone(), equation.at, &mut Vec::new());
    if let Some(slot) = sketch.equations.get_mut(chosen) {
        *slot = equation;
    }
}

impl Shortener<'_> {
    fn tree(&mut self, tree: &Tree, at: usize, scope: &mut Vec<usize>) -> Tree {
        if self.left == Some(0) {
            self.left = None;
            return self.short(tree, at, scope);
        }
        self.left = self.left.map(|left| left - 1);
        match (tree, self.sketch.types.get(at).copied()) {
            (Tree::Lambda(body), Some(Shape::Arrow(domain, result))) => {
                scope.push(domain);
                let body = self.tree(body, result, scope);
                scope.pop();
                Tree::lambda(body)
            }
            (Tree::Apply(head, arguments), _) => {
                let domains = self.domains(*head, scope);
                let both = arguments.iter().zip(domains);
                Tree::Apply(
                    *head,
                    both.map(|(argument, domain)| self.tree(argument, domain, scope)).collect(),
                )
            }
            _ => tree.clone(),
        }
    }

    fn domains(&self, head: Head, scope: &[usize]) -> Vec<usize> {
        let of_type = match head {
            Head::Constant(constant) => self.sketch.constants.get(constant as usize).copied(),
            Head::Variable(variable) => scope.iter().rev().nth(variable as usize).copied(),
            Head::Hole(hole) => {
                let hole = self.sketch.holes.get(hole as usize);
                return hole.map(|hole| hole.context.clone()).unwrap_or_default();
            }
        };
        of_type.map(|of_type| self.sketch.spine(of_type).0).unwrap_or_default()
    }

    fn short(&mut self, tree: &Tree, at: usize, scope: &mut Vec<usize>) -> Tree {
        if self.sketch.is_base(at) {
            return self.short_at_base(tree);
        }
        match self.random.below(4) {
            0 => contracted(tree).unwrap_or_else(|| self.bare(at, scope)),
            1 => self.bare(at, scope),
            2 => self.hole(at).unwrap_or_else(|| self.bare(at, scope)),
            _ => self.partial(at, scope).unwrap_or_else(|| self.bare(at, scope)),
        }
    }

    /// A lambda around the term, or an argument less, or an argument more.
    fn short_at_base(&mut self, tree: &Tree) -> Tree {
        match tree {
            Tree::Apply(head, arguments) if self.random.chance(60) => {
                let mut changed = arguments.clone();
                if changed.pop().is_none() {
                    changed.push(tree.clone());
                }
                Tree::Apply(*head, changed)
            }
            _ => Tree::lambda(tree.renamed(&|variable| Some(variable + 1)).unwrap_or(tree.clone())),
        }
    }

    /// A bare variable of the type, or a bare constant.
    fn bare(&mut self, at: usize, scope: &[usize]) -> Tree {
        let fits = |variable: &usize| scope.iter().rev().nth(*variable) == Some(&at);
        let variables: Vec<usize> = (0..scope.len()).filter(fits).collect();
        if let Some(variable) = self.random.pick(&variables) {
            return Tree::variable(variable as u32);
        }
        let known = self.sketch.constants.iter().position(|&of_type| of_type == at);
        let constant = known.unwrap_or(self.sketch.constants.len());
        if known.is_none() {
            self.sketch.constants.push(at);
        }
        Tree::Apply(Head::Constant(constant as u32), Vec::new())
    }

    /// A hole of the final type without arguments.
    fn hole(&mut self, at: usize) -> Option<Tree> {
        let base = self.sketch.spine(at).1;
        let holes = self.sketch.holes.iter().enumerate();
        let fitting: Vec<u32> = holes.filter(|(_, hole)| hole.base == base).map(|(h, _)| h as u32).collect();
        self.random.pick(&fitting).map(|hole| Tree::Apply(Head::Hole(hole), Vec::new()))
    }

    /// A head with some arguments, whose type after them is the asked one.
    fn partial(&mut self, at: usize, scope: &mut Vec<usize>) -> Option<Tree> {
        let constants = self.sketch.constants.iter().enumerate().map(|(c, &t)| (Head::Constant(c as u32), t));
        let variables = scope.iter().rev().enumerate().map(|(v, &t)| (Head::Variable(v as u32), t));
        let mut fitting = Vec::new();
        for (head, of_type) in constants.chain(variables) {
            let mut left_over = of_type;
            let mut domains = Vec::new();
            while let Some(&Shape::Arrow(domain, result)) = self.sketch.types.get(left_over) {
                domains.push(domain);
                left_over = result;
                if left_over == at {
                    fitting.push((head, domains.clone()));
                }
            }
        }
        let chosen = self.random.below(fitting.len());
        let (head, domains) = fitting.get(chosen)?.clone();
        let mut grower = Grower { sketch: self.sketch, random: self.random, habit: HABIT };
        let arguments = domains.into_iter().map(|domain| grower.term(domain, scope, 1)).collect();
        Some(Tree::Apply(head, arguments))
    }
}

/// The term without its lambdas and as many last arguments, if these stand there.
fn contracted(tree: &Tree) -> Option<Tree> {
    let (mut inner, mut lambdas) = (tree, 0u32);
    while let Tree::Lambda(body) = inner {
        inner = body;
        lambdas += 1;
    }
    let Tree::Apply(head, arguments) = inner else { return None };
    let kept = arguments.len().checked_sub(lambdas as usize)?;
    let shorter = Tree::Apply(*head, arguments.iter().take(kept).cloned().collect());
    shorter.renamed(&|variable| variable.checked_sub(lambdas))
}
