//! Growing random typed terms over a sketch.

use crate::generate::sketch::{Hole, Sketch};
use crate::random::Random;
use crate::tree::{Head, Tree};

/// How terms are grown.
#[derive(Clone, Copy)]
pub struct Habit {
    /// In so many of a hundred cases a hole is tried.
    pub holes: usize,
    /// In so many of a hundred of these a known hole is taken again, if one fits.
    pub known: usize,
    /// Solutions made start with a constant that takes arguments.
    pub deep: bool,
    /// New holes are made with a solution.
    pub hidden: bool,
    /// In so many of a hundred cases a hole's arguments are any terms.
    pub loose: usize,
}

/// Grows terms; types bound around a term stand in a scope, the innermost last.
pub struct Grower<'a> {
    pub sketch: &'a mut Sketch,
    pub random: &'a mut Random,
    pub habit: Habit,
}

impl Grower<'_> {
    /// A term of the type in the scope, not much larger than the fuel.
    pub fn term(&mut self, of_type: usize, scope: &mut Vec<usize>, fuel: usize) -> Tree {
        let (domains, base) = self.sketch.spine(of_type);
        let outer = scope.len();
        scope.extend(&domains);
        let mut tree = if self.random.chance(self.habit.holes) {
            self.hole(base, scope, fuel)
        } else {
            self.rigid(base, scope, fuel)
        };
        scope.truncate(outer);
        for _ in domains {
            tree = Tree::lambda(tree);
        }
        tree
    }

    /// A constant or variable applied to grown arguments.
    fn rigid(&mut self, base: usize, scope: &mut Vec<usize>, fuel: usize) -> Tree {
        let Some((head, of_type)) = self.some_head(base, scope, fuel) else {
            self.sketch.constants.push(base);
            let constant = Head::Constant(self.sketch.constants.len() as u32 - 1);
            return Tree::Apply(constant, Vec::new());
        };
        let domains = self.sketch.spine(of_type).0;
        let mut arguments = Vec::new();
        for domain in domains {
            let share = self.random.between(fuel / 3, fuel.saturating_sub(1));
            arguments.push(self.term(domain, scope, share));
        }
        Tree::Apply(head, arguments)
    }

    /// A constant applied to grown arguments, or a hole where no constant fits.
    pub fn constant(&mut self, base: usize, scope: &mut Vec<usize>, fuel: usize) -> Tree {
        let constants = self.sketch.constants.iter().enumerate();
        let spines = constants.map(|(constant, &of_type)| (constant, self.sketch.spine(of_type)));
        let fitting: Vec<(usize, Vec<usize>)> = spines
            .filter(|(_, (domains, last))| *last == base && !domains.is_empty())
            .map(|(constant, (domains, _))| (constant, domains))
            .collect();
        let chosen = self.random.below(fitting.len());
        let Some((constant, domains)) = fitting.get(chosen) else {
            return self.hole(base, scope, fuel);
        };
        let arguments = domains.iter().map(|&domain| self.term(domain, scope, fuel / 2)).collect();
        Tree::Apply(Head::Constant(*constant as u32), arguments)
    }

    fn some_head(&mut self, base: usize, scope: &[usize], fuel: usize) -> Option<(Head, usize)> {
        let mut heads = Vec::new();
        for (constant, &of_type) in self.sketch.constants.iter().enumerate() {
            heads.push((Head::Constant(constant as u32), of_type));
        }
        for (variable, &of_type) in scope.iter().rev().enumerate() {
            heads.push((Head::Variable(variable as u32), of_type));
            heads.push((Head::Variable(variable as u32), of_type));
        }
        heads.retain(|&(_, of_type)| {
            let (domains, last) = self.sketch.spine(of_type);
            last == base && (fuel > 0 || domains.is_empty())
        });
        self.random.pick(&heads)
    }

    /// A hole occurrence: a known hole if one fits, or a new one.
    pub fn hole(&mut self, base: usize, scope: &mut Vec<usize>, fuel: usize) -> Tree {
        if fuel > 0 && self.random.chance(self.habit.loose) {
            if let Some(tree) = self.loose(base, scope, fuel) {
                return tree;
            }
        }
        if self.random.chance(self.habit.known) {
            let of_base = |hole: &Hole| hole.base == base;
            let holes = &self.sketch.holes;
            let mut fitting: Vec<usize> =
                (0..holes.len()).filter(|&h| holes.get(h).is_some_and(of_base)).collect();
            self.random.shuffle(&mut fitting);
            if let Some(tree) = fitting.into_iter().find_map(|hole| self.known(hole, scope)) {
                return tree;
            }
        }
        self.fresh(base, scope, fuel)
    }

    /// An occurrence of a known hole with different variables of the right types.
    pub fn known(&mut self, hole: usize, scope: &[usize]) -> Option<Tree> {
        let context = self.sketch.holes.get(hole)?.context.clone();
        let mut order: Vec<usize> = (0..scope.len()).collect();
        self.random.shuffle(&mut order);
        let mut variables = Vec::new();
        for asked in context {
            let found = order.iter().position(|&at| scope.get(at) == Some(&asked))?;
            variables.push((scope.len() - 1 - order.swap_remove(found)) as u32);
        }
        Some(Tree::occurrence(hole as u32, &variables))
    }

    /// An occurrence of a new hole over some of the scope, in some order.
    pub fn fresh(&mut self, base: usize, scope: &[usize], fuel: usize) -> Tree {
        let kept = if self.random.chance(60) { scope.len() } else { self.random.below(scope.len() + 1) };
        self.fresh_over(base, scope, kept, fuel)
    }

    /// An occurrence of a new hole over so many variables of the scope.
    pub fn fresh_over(&mut self, base: usize, scope: &[usize], kept: usize, fuel: usize) -> Tree {
        let mut order: Vec<usize> = (0..scope.len()).collect();
        self.random.shuffle(&mut order);
        order.truncate(kept.min(16));
        let context: Vec<usize> = order.iter().filter_map(|&at| scope.get(at).copied()).collect();
        let variables: Vec<u32> = order.iter().map(|&at| (scope.len() - 1 - at) as u32).collect();
        let hidden = self.hidden(&context, base, fuel);
        self.sketch.holes.push(Hole { context, base, hidden });
        Tree::occurrence(self.sketch.holes.len() as u32 - 1, &variables)
    }

    /// A solution over the context; it knows only holes that are there already.
    fn hidden(&mut self, context: &[usize], base: usize, fuel: usize) -> Option<Tree> {
        if !self.habit.hidden || self.random.chance(15) {
            return None;
        }
        let mut scope: Vec<usize> = context.iter().rev().copied().collect();
        let habit = self.habit;
        self.habit.holes = if fuel > 1 { habit.holes * 2 / 3 } else { 0 };
        let less = (fuel * 2 / 3).max(1);
        let tree = if habit.deep && fuel > 1 {
            self.habit.holes = habit.holes;
            self.constant(base, &mut scope, less)
        } else {
            self.rigid(base, &mut scope, less)
        };
        self.habit = habit;
        Some(tree)
    }

    /// A hole with arguments that are any terms, or a variable twice.
    fn loose(&mut self, base: usize, scope: &mut Vec<usize>, fuel: usize) -> Option<Tree> {
        let fits = |hole: &Hole| hole.base == base && !hole.context.is_empty();
        let holes = &self.sketch.holes;
        let known: Vec<usize> = (0..holes.len()).filter(|&h| holes.get(h).is_some_and(fits)).collect();
        let hole = self.random.pick(&known)?;
        let context = self.sketch.holes.get(hole)?.context.clone();
        let mut arguments = Vec::new();
        for asked in context {
            let same: Vec<usize> = (0..scope.len()).filter(|&at| scope.get(at) == Some(&asked)).collect();
            match self.random.pick(&same) {
                Some(at) if self.random.chance(60) => {
                    arguments.push(Tree::variable((scope.len() - 1 - at) as u32))
                }
                _ => arguments.push(self.term(asked, scope, fuel / 2)),
            }
        }
        Some(Tree::Apply(Head::Hole(hole as u32), arguments))
    }
}
