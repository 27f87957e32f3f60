//! A problem before it is laid out as records: types, constants, holes, equations.

use crate::random::Random;
use crate::tree::Tree;

/// A type; arrows name earlier types.
#[derive(Clone, Copy, Debug, PartialEq, Eq)]
pub enum Shape {
    Base(u32),
    Arrow(usize, usize),
}

/// A hole, and the solution it was made with, if any.
#[derive(Clone, Debug)]
pub struct Hole {
    pub context: Vec<usize>,
    pub base: usize,
    pub hidden: Option<Tree>,
}

/// An equation between two trees at a type.
#[derive(Clone, Debug)]
pub struct Equation {
    pub left: Tree,
    pub right: Tree,
    pub at: usize,
}

/// The parts of a problem; constants are given by their types.
#[derive(Clone, Debug, Default)]
pub struct Sketch {
    pub types: Vec<Shape>,
    pub constants: Vec<usize>,
    pub holes: Vec<Hole>,
    pub equations: Vec<Equation>,
}

impl Sketch {
    /// One to three base types, a few arrows, a few constants.
    pub fn start(random: &mut Random) -> Sketch {
        let mut sketch = Sketch::default();
        let shift = random.below(5) as u32;
        for number in 0..random.between(1, 5).saturating_sub(2).max(1) {
            sketch.types.push(Shape::Base(number as u32 * 7 + shift));
        }
        for _ in 0..random.between(2, 4) {
            let of_type = sketch.some_type(random, 2);
            sketch.constants.push(of_type);
        }
        let base = sketch.some_base(random);
        sketch.constants.push(base);
        sketch
    }

    pub fn some_base(&self, random: &mut Random) -> usize {
        let bases: Vec<usize> = (0..self.types.len()).filter(|&t| self.is_base(t)).collect();
        random.pick(&bases).unwrap_or(0)
    }

    pub fn is_base(&self, of_type: usize) -> bool {
        matches!(self.types.get(of_type), Some(Shape::Base(_)))
    }

    /// A type of at most this order, with few arguments.
    pub fn some_type(&mut self, random: &mut Random, order: usize) -> usize {
        let mut of_type = self.some_base(random);
        if order > 0 {
            for _ in 0..random.below(4) {
                let lower = if random.chance(70) { 0 } else { order - 1 };
                let domain = self.some_type(random, lower);
                of_type = self.arrow(domain, of_type);
            }
        }
        of_type
    }

    /// The arrow between two types, made if it is new.
    pub fn arrow(&mut self, domain: usize, result: usize) -> usize {
        let shape = Shape::Arrow(domain, result);
        if let Some(known) = self.types.iter().position(|&t| t == shape) {
            return known;
        }
        self.types.push(shape);
        self.types.len() - 1
    }

    /// The argument types and the final base type.
    pub fn spine(&self, of_type: usize) -> (Vec<usize>, usize) {
        let mut domains = Vec::new();
        let mut left_over = of_type;
        while let Some(&Shape::Arrow(domain, result)) = self.types.get(left_over) {
            domains.push(domain);
            left_over = result;
        }
        (domains, left_over)
    }
}
