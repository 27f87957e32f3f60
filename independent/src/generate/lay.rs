//! Laying a sketch out as records.

use crate::generate::alter::opened;
use crate::generate::problem::Made;
use crate::generate::sketch::{Shape, Sketch};
use crate::random::Random;
use crate::tree::{Head, Tree};
use crate::words::*;

/// Choices a layout is free to make.
struct Style {
    /// Arguments are laid just before their cells, the last first.
    cells_between: bool,
    /// All equations come after all terms.
    equations_last: bool,
}

/// Records being laid, and where the parts of the sketch went.
struct Layout {
    records: Vec<Record>,
    style: Style,
    types: Vec<u32>,
    constants: Vec<u32>,
    holes: Vec<u32>,
}

/// The records of a sketch, and the solutions its holes were made with.
pub fn lay(sketch: &Sketch, random: &mut Random) -> Made {
    let style = Style { cells_between: random.chance(40), equations_last: random.chance(75) };
    let mut layout = Layout {
        records: Vec::new(),
        style,
        types: Vec::new(),
        constants: vec![NONE; sketch.constants.len()],
        holes: vec![NONE; sketch.holes.len()],
    };
    layout.types(sketch);
    layout.heads(sketch, random);
    if random.chance(10) {
        layout.unreached(random);
    }
    layout.equations(sketch);
    let witness = layout.witness(sketch, random);
    Made { records: layout.records, witness }
}

impl Layout {
    fn push(&mut self, tag: u32, a: u32, b: u32, c: u32) -> u32 {
        self.records.push(Record::new(tag, a, b, c));
        self.records.len() as u32 - 1
    }

    fn type_number(&self, of_type: usize) -> u32 {
        self.types.get(of_type).copied().unwrap_or(NONE)
    }

    fn types(&mut self, sketch: &Sketch) {
        for &shape in &sketch.types {
            let number = match shape {
                Shape::Base(base) => self.push(BT, base, 0, 0),
                Shape::Arrow(domain, result) => {
                    self.push(AR, self.type_number(domain), self.type_number(result), 0)
                }
            };
            self.types.push(number);
        }
    }

    /// Constants and holes, in any order.
    fn heads(&mut self, sketch: &Sketch, random: &mut Random) {
        let constants = (0..sketch.constants.len()).map(|c| (true, c));
        let holes = (0..sketch.holes.len()).map(|h| (false, h));
        let mut order: Vec<(bool, usize)> = constants.chain(holes).collect();
        if random.chance(50) {
            random.shuffle(&mut order);
        }
        for (is_constant, index) in order {
            if is_constant {
                self.constant(sketch, index);
            } else {
                self.hole(sketch, index);
            }
        }
    }

    fn constant(&mut self, sketch: &Sketch, index: usize) {
        let of_type = sketch.constants.get(index).copied().unwrap_or(0);
        let number = self.push(KO, self.type_number(of_type), 0, 0);
        if let Some(slot) = self.constants.get_mut(index) {
            *slot = number;
        }
    }

    fn hole(&mut self, sketch: &Sketch, index: usize) {
        let Some(hole) = sketch.holes.get(index) else { return };
        let mut rest = NONE;
        for &of_type in hole.context.iter().rev() {
            rest = self.push(CE, self.type_number(of_type), rest, 0);
        }
        let number = self.push(HO, rest, self.type_number(hole.base), 0);
        if let Some(slot) = self.holes.get_mut(index) {
            *slot = number;
        }
    }

    /// Records that no equation reaches; typing and patterns do not ask for them.
    fn unreached(&mut self, random: &mut Random) {
        let hole = random.pick(&self.holes);
        let first = self.push(VA, random.below(5) as u32, NONE, 0);
        let list = self.push(CE, first, NONE, 0);
        match hole {
            Some(hole) => self.push(HA, hole, list, 0),
            None => self.push(VA, 1, list, 0),
        };
    }

    fn equations(&mut self, sketch: &Sketch) {
        let mut waiting = Vec::new();
        for equation in &sketch.equations {
            let left = self.tree(&equation.left);
            let right = self.tree(&equation.right);
            let at = self.type_number(equation.at);
            if self.style.equations_last {
                waiting.push((left, right, at));
            } else {
                self.push(EQ, left, right, at);
            }
        }
        for (left, right, at) in waiting {
            self.push(EQ, left, right, at);
        }
    }

    /// For each hole the solution it was made with, opened to the end, over record numbers.
    fn witness(&self, sketch: &Sketch, random: &mut Random) -> Vec<(u32, Tree)> {
        let mut witness = Vec::new();
        for (index, (hole, &number)) in sketch.holes.iter().zip(&self.holes).enumerate() {
            let entries: Vec<u32> = (0..hole.context.len() as u32).collect();
            let itself = Tree::occurrence(index as u32, &entries);
            let solution = opened(sketch, random, &itself, 100);
            witness.push((number, self.numbered(&solution)));
        }
        witness
    }

    /// The tree with record numbers for constants and holes.
    fn numbered(&self, tree: &Tree) -> Tree {
        match tree {
            Tree::Lambda(body) => Tree::lambda(self.numbered(body)),
            Tree::Apply(head, arguments) => {
                let known = |list: &[u32], at: u32| list.get(at as usize).copied().unwrap_or(NONE);
                let head = match *head {
                    Head::Constant(c) => Head::Constant(known(&self.constants, c)),
                    Head::Hole(h) => Head::Hole(known(&self.holes, h)),
                    variable => variable,
                };
                Tree::Apply(head, arguments.iter().map(|argument| self.numbered(argument)).collect())
            }
        }
    }

    fn tree(&mut self, tree: &Tree) -> u32 {
        match tree {
            Tree::Lambda(body) => {
                let body = self.tree(body);
                self.push(LA, body, 0, 0)
            }
            Tree::Apply(head, arguments) => {
                let list = self.arguments(arguments);
                let known = |list: &[u32], at: u32| list.get(at as usize).copied().unwrap_or(NONE);
                match *head {
                    Head::Constant(c) => self.push(CA, known(&self.constants, c), list, 0),
                    Head::Variable(v) => self.push(VA, v, list, 0),
                    Head::Hole(h) => self.push(HA, known(&self.holes, h), list, 0),
                }
            }
        }
    }

    fn arguments(&mut self, arguments: &[Tree]) -> u32 {
        let mut rest = NONE;
        if self.style.cells_between {
            for argument in arguments.iter().rev() {
                let element = self.tree(argument);
                rest = self.push(CE, element, rest, 0);
            }
        } else {
            let elements: Vec<u32> = arguments.iter().map(|argument| self.tree(argument)).collect();
            for element in elements.into_iter().rev() {
                rest = self.push(CE, element, rest, 0);
            }
        }
        rest
    }
}
