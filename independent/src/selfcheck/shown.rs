//! The shown output: exactly the records of the hole's filling, children first.

use crate::tree::{Head, Tree};
use crate::words::*;

/// The words show must write for a tree.
pub fn shown_words(tree: &Tree) -> Vec<u32> {
    let mut words = Vec::new();
    lay(tree, &mut words);
    words
}

fn push(words: &mut Vec<u32>, record: [u32; 4]) -> u32 {
    words.extend(record);
    (words.len() / 4 - 1) as u32
}

fn lay(tree: &Tree, words: &mut Vec<u32>) -> u32 {
    match tree {
        Tree::Lambda(body) => {
            let body = lay(body, words);
            push(words, [LA, body, 0, 0])
        }
        Tree::Apply(head, arguments) => {
            let numbers: Vec<u32> = arguments.iter().map(|argument| lay(argument, words)).collect();
            let cell = |rest: u32, &number: &u32| push(words, [CE, number, rest, 0]);
            let list = numbers.iter().rev().fold(NONE, cell);
            match *head {
                Head::Constant(constant) => push(words, [CA, constant, list, 0]),
                Head::Variable(variable) => push(words, [VA, variable, list, 0]),
                Head::Hole(hole) => push(words, [HA, hole, list, 0]),
            }
        }
    }
}
