//! Families of problems that scale, for comparison and for measuring.

pub mod build;
mod deep;
mod holes;
mod rigid;

use build::{Build, Record};

/// A way to make problems of any size, and the answer they have when there is room.
pub struct Family {
    pub name: &'static str,
    pub answer: u16,
    make: fn(usize) -> Build,
}

const fn family(name: &'static str, answer: u16, make: fn(usize) -> Build) -> Family {
    Family { name, answer, make }
}

pub const ALL: [Family; 18] = [
    family("permuted arguments", 0, holes::permuted),
    family("narrowing", 0, holes::narrowing),
    family("large narrowing", 0, holes::large_narrowing),
    family("the same hole twice", 0, holes::same_hole),
    family("equal rigid trees", 0, rigid::equal_trees),
    family("clash at the last leaf", 1, rigid::clash_last),
    family("a hole at each leaf", 0, rigid::hole_at_each_leaf),
    family("one large solution", 0, rigid::one_solution),
    family("escape at the last leaf", 2, rigid::escape_last),
    family("occurs at the last leaf", 3, rigid::occurs_last),
    family("deep equal nests", 0, deep::deep_equal),
    family("deep nest as solution", 0, deep::deep_solution),
    family("deep binders", 0, deep::deep_binders),
    family("deep lambdas", 0, deep::deep_lambdas),
    family("chain walked down", 0, deep::chain_walked),
    family("chain copied down", 0, deep::chain_copied),
    family("chain up", 0, deep::chain_up),
    family("chain of names", 0, deep::chain_of_names),
];

impl Family {
    /// The problem with about so many term nodes.
    pub fn records(&self, nodes: usize) -> Vec<Record> {
        (self.make)(nodes).records
    }

    /// The largest problem with at most so many records.
    pub fn largest(&self, records: usize) -> Vec<Record> {
        let (mut fits, mut too_large) = (1, records + 1);
        while too_large - fits > 1 {
            let middle = (fits + too_large) / 2;
            if self.records(middle).len() <= records {
                fits = middle;
            } else {
                too_large = middle;
            }
        }
        self.records(fits)
    }
}

/// How many of the records are term nodes.
pub fn nodes(records: &[Record]) -> usize {
    records.iter().filter(|record| (6..=9).contains(&record[0])).count()
}
