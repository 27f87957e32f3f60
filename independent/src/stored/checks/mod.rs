//! The stored list of checks: problems that keep every rule, and problems that break one.

mod fields;
mod holes;
mod lists;
mod many;
mod order;
mod patterns;
mod references;
mod sizes;
mod types;
mod typing;
mod unreached;
mod uses;
mod zoo;

use crate::stored::notation::written;
use crate::words::*;

/// One problem, what it is meant to break, and the answer and place that follow from it.
#[derive(Clone, Debug)]
pub struct Check {
    pub name: String,
    pub n: u32,
    pub words: Vec<u32>,
    pub answer: u32,
    pub place: u32,
}

impl Check {
    /// All these records, and nothing else.
    fn new(name: impl Into<String>, records: &[Record], answer: u32, place: u32) -> Check {
        let words = records.iter().flat_map(|r| [r.tag, r.a, r.b, r.c]).collect();
        Check { name: name.into(), n: records.len() as u32, words, answer, place }
    }

    /// A problem in the short notation; its mark is the place.
    fn of_text(name: impl Into<String>, text: &str, answer: u32) -> Check {
        let written = written(text);
        Check::new(name, &written.records, answer, written.marked.unwrap_or(0))
    }
}

/// The whole list, always the same.
pub fn checks() -> Vec<Check> {
    let parts = [
        fields::all(),
        references::all(),
        uses::all(),
        types::all(),
        lists::all(),
        typing::all(),
        holes::all(),
        patterns::all(),
        many::all(),
        unreached::all(),
        order::all(),
        sizes::all(),
    ];
    parts.into_iter().flatten().collect()
}
