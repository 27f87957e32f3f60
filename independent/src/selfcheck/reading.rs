//! A table read as types and trees.

use crate::tree::{Head, Tree};
use crate::words::*;

/// Words seen as a table; types are their record numbers, equal only to themselves.
#[derive(Clone, Copy)]
pub struct Reading<'a> {
    pub words: &'a [u32],
    /// How many records count.
    pub count: usize,
}

impl<'a> Reading<'a> {
    pub fn new(words: &'a [u32], count: usize) -> Reading<'a> {
        Reading { words, count }
    }

    pub fn record(&self, number: u32) -> Record {
        get(self.words, number as usize)
    }

    /// The numbers of all records with this tag.
    pub fn tagged(&self, tag: u32) -> Vec<u32> {
        (0..self.count as u32).filter(|&number| self.record(number).tag == tag).collect()
    }

    /// The term as a tree; lists and terms must lead downward.
    pub fn tree(&self, term: u32) -> Option<Tree> {
        let record = self.record(term);
        let head = match record.tag {
            LA if record.a < term => return Some(Tree::lambda(self.tree(record.a)?)),
            CA => Head::Constant(record.a),
            VA => Head::Variable(record.a),
            HA => Head::Hole(record.a),
            _ => return None,
        };
        let arguments = elements(self.words, record.b).into_iter();
        let trees = arguments.map(|argument| if argument < term { self.tree(argument) } else { None });
        Some(Tree::Apply(head, trees.collect::<Option<Vec<Tree>>>()?))
    }

    pub fn arrow(&self, of_type: u32) -> Option<(u32, u32)> {
        let record = self.record(of_type);
        (record.tag == AR).then_some((record.a, record.b))
    }

    /// The argument types and the final type.
    pub fn spine(&self, of_type: u32) -> (Vec<u32>, u32) {
        match self.arrow(of_type) {
            None => (Vec::new(), of_type),
            Some((domain, result)) => {
                let (mut domains, last) = self.spine(result);
                domains.insert(0, domain);
                (domains, last)
            }
        }
    }

    pub fn constant_type(&self, constant: u32) -> u32 {
        self.record(constant).a
    }

    pub fn context(&self, hole: u32) -> Vec<u32> {
        elements(self.words, self.record(hole).a)
    }

    pub fn base(&self, hole: u32) -> u32 {
        self.record(hole).b
    }

    /// Both sides of each equation as trees, with the type, by record number.
    pub fn equations(&self) -> Vec<(u32, Tree, Tree, u32)> {
        let equation = |number: u32| {
            let record = self.record(number);
            Some((number, self.tree(record.a)?, self.tree(record.b)?, record.c))
        };
        self.tagged(EQ).into_iter().filter_map(equation).collect()
    }
}
