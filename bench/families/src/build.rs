//! Building a problem record by record.

pub const NONE: u32 = u32::MAX;

/// Tag, a, b, c.
pub type Record = [u32; 4];

/// Base type i.
pub const I: u32 = 0;
/// i to i.
pub const I_I: u32 = 1;
/// i to i to i.
pub const I_I_I: u32 = 2;
/// (i to i) to i.
pub const II_I: u32 = 3;
/// Constants a, b of type i; f from i to i; g takes two; q takes a function.
pub const A: u32 = 4;
pub const B: u32 = 5;
pub const F: u32 = 6;
pub const G: u32 = 7;
pub const Q: u32 = 8;

/// The records so far; each function answers the number of what it wrote.
pub struct Build {
    pub records: Vec<Record>,
}

impl Build {
    /// The types and constants above.
    pub fn new() -> Build {
        let records = vec![
            [1, 0, 0, 0],
            [2, I, I, 0],
            [2, I, I_I, 0],
            [2, I_I, I, 0],
            [3, I, 0, 0],
            [3, I, 0, 0],
            [3, I_I, 0, 0],
            [3, I_I_I, 0, 0],
            [3, II_I, 0, 0],
        ];
        Build { records }
    }

    pub fn push(&mut self, record: Record) -> u32 {
        self.records.push(record);
        self.records.len() as u32 - 1
    }

    fn list(&mut self, elements: &[u32]) -> u32 {
        let mut rest = NONE;
        for &element in elements.iter().rev() {
            rest = self.push([5, element, rest, 0]);
        }
        rest
    }

    /// The type with so many arguments, all of type i.
    pub fn arrows(&mut self, count: usize) -> u32 {
        let mut last = I;
        for _ in 0..count {
            let known = self.records.iter().position(|&record| record == [2, I, last, 0]);
            last = known.map_or_else(|| self.push([2, I, last, 0]), |number| number as u32);
        }
        last
    }

    /// A hole over so many variables of type i.
    pub fn hole(&mut self, context: usize) -> u32 {
        let list = self.list(&vec![I; context]);
        self.push([4, list, I, 0])
    }

    pub fn constant(&mut self, constant: u32, arguments: &[u32]) -> u32 {
        let list = self.list(arguments);
        self.push([7, constant, list, 0])
    }

    pub fn variable(&mut self, number: usize) -> u32 {
        self.push([8, number as u32, NONE, 0])
    }

    /// A hole applied to bare variables.
    pub fn applied(&mut self, hole: u32, variables: &[usize]) -> u32 {
        let arguments: Vec<u32> = variables.iter().map(|&number| self.variable(number)).collect();
        let list = self.list(&arguments);
        self.push([9, hole, list, 0])
    }

    pub fn lambdas(&mut self, count: usize, body: u32) -> u32 {
        (0..count).fold(body, |body, _| self.push([6, body, 0, 0]))
    }

    /// Both sides under so many lambdas, at the type of that many arguments.
    pub fn equation(&mut self, lambdas: usize, left: u32, right: u32) {
        let at = self.arrows(lambdas);
        let left = self.lambdas(lambdas, left);
        let right = self.lambdas(lambdas, right);
        self.push([10, left, right, at]);
    }

    /// A balanced tree of g with so many leaves, each made from its number.
    pub fn tree(&mut self, leaves: std::ops::Range<usize>, leaf: &mut dyn FnMut(&mut Build, usize) -> u32) -> u32 {
        if leaves.len() <= 1 {
            return leaf(self, leaves.start);
        }
        let middle = leaves.start + leaves.len() / 2;
        let left = self.tree(leaves.start..middle, leaf);
        let right = self.tree(middle..leaves.end, leaf);
        self.constant(G, &[left, right])
    }

    /// f applied so many times.
    pub fn nest(&mut self, depth: usize, inside: u32) -> u32 {
        (0..depth).fold(inside, |argument, _| self.constant(F, &[argument]))
    }
}

impl Default for Build {
    fn default() -> Self {
        Build::new()
    }
}
