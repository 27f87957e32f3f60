//! A whole problem as it is lent to the solver: every word before the call.

use crate::random::Random;
use crate::tree::Tree;
use crate::words::*;

/// Which part of the generator made a problem.
#[derive(Clone, Copy, Debug, PartialEq, Eq)]
pub enum Kind {
    Typed,
    Damaged,
    Words,
    Edge,
    Tight,
    Types,
    Bare,
    Repeat,
    Crowd,
    Lists,
}

impl Kind {
    pub const ALL: [Kind; 10] = [
        Kind::Typed,
        Kind::Damaged,
        Kind::Words,
        Kind::Edge,
        Kind::Tight,
        Kind::Types,
        Kind::Bare,
        Kind::Repeat,
        Kind::Crowd,
        Kind::Lists,
    ];

    pub fn letter(self) -> char {
        match self {
            Kind::Typed => 't',
            Kind::Damaged => 'd',
            Kind::Words => 'r',
            Kind::Edge => 'e',
            Kind::Tight => 'c',
            Kind::Types => 'y',
            Kind::Bare => 'b',
            Kind::Repeat => 'p',
            Kind::Crowd => 'm',
            Kind::Lists => 'l',
        }
    }
}

/// Records, and for each hole a term; of a solvable problem these may make all equations equal.
#[derive(Clone, Debug, Default)]
pub struct Made {
    pub records: Vec<Record>,
    pub witness: Vec<(u32, Tree)>,
}

/// The words lent, n, and the hole asked of show.
#[derive(Clone, Debug)]
pub struct Problem {
    pub kind: Kind,
    pub table: Vec<u32>,
    pub n: usize,
    pub solutions: Vec<u32>,
    pub queue: Vec<u32>,
    pub hole: usize,
    pub output: Vec<u32>,
    /// Terms that may solve the problem, for the self-check only.
    pub witness: Vec<(u32, Tree)>,
}

/// The sizes of the lent slices, in words.
#[derive(Clone, Copy)]
pub struct Sizes {
    pub table: usize,
    pub solutions: usize,
    pub queue: usize,
    pub output: usize,
}

impl Problem {
    /// A problem of these records in slices of these sizes, other words being litter.
    pub fn of_made(kind: Kind, made: &Made, sizes: Sizes, random: &mut Random) -> Problem {
        let records = &made.records;
        let table = table_of(records, sizes.table, random);
        let hole = some_hole(records, random);
        Problem {
            kind,
            table,
            n: records.len(),
            solutions: litter(random, sizes.solutions),
            queue: litter(random, sizes.queue),
            hole,
            output: litter(random, sizes.output),
            witness: made.witness.clone(),
        }
    }
}

/// Mostly a hole's number, now and then any other.
fn some_hole(records: &[Record], random: &mut Random) -> usize {
    let holes: Vec<usize> =
        (0..records.len()).filter(|&k| records.get(k).is_some_and(|r| r.tag == HO)).collect();
    match random.below(20) {
        0 => random.below(records.len() + 3),
        1 => random.pick(&[usize::MAX, 4095, 4096, u32::MAX as usize]).unwrap_or(0),
        _ => random.pick(&holes).unwrap_or(random.below(records.len() + 1)),
    }
}

/// So many words: these records, as far as they fit, then litter.
pub fn table_of(records: &[Record], words: usize, random: &mut Random) -> Vec<u32> {
    let mut table = litter(random, words);
    for (number, &record) in records.iter().enumerate() {
        put(&mut table, number, record);
    }
    table
}

/// Words left over from something else.
pub fn litter(random: &mut Random, count: usize) -> Vec<u32> {
    let mix = random.below(4);
    let word = |random: &mut Random| match mix {
        0 => 0,
        1 => NONE,
        2 => random.below(12) as u32,
        _ => random.word(),
    };
    (0..count).map(|_| word(random)).collect()
}
