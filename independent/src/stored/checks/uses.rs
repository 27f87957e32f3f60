//! A second reference to a term or a list: by each referring field after each other one.

use super::Check;
use crate::words::*;

/// Where a reference stands; 99 is put for the target, 98 for an unused term.
type Referrer = (&'static str, [u32; 4]);

const TARGET: u32 = 99;
const OTHER: u32 = 98;

const OF_TERMS: [Referrer; 4] = [
    ("a cell", [CE, TARGET, NONE, 0]),
    ("a lambda", [LA, TARGET, 0, 0]),
    ("a left side", [EQ, TARGET, OTHER, 0]),
    ("a right side", [EQ, OTHER, TARGET, 0]),
];

const OF_TYPE_LISTS: [Referrer; 2] = [("a hole", [HO, TARGET, 0, 0]), ("a cell", [CE, 0, TARGET, 0])];

const OF_TERM_LISTS: [Referrer; 4] = [
    ("a cell", [CE, OTHER, TARGET, 0]),
    ("an applied constant", [CA, 1, TARGET, 0]),
    ("an applied variable", [VA, 0, TARGET, 0]),
    ("an applied hole", [HA, 2, TARGET, 0]),
];

/// What is referred to twice: the records that lay it after the types and heads, and who may refer.
type Target = (&'static str, [[u32; 4]; 2], &'static [Referrer]);

const TARGETS: [Target; 6] = [
    ("a lambda", [[VA, 0, NONE, 0], [LA, 3, 0, 0]], &OF_TERMS),
    ("an applied constant", [[KO, 0, 0, 0], [CA, 3, NONE, 0]], &OF_TERMS),
    ("an applied variable", [[KO, 0, 0, 0], [VA, 3, NONE, 0]], &OF_TERMS),
    ("an applied hole", [[HO, NONE, 0, 0], [HA, 3, NONE, 0]], &OF_TERMS),
    ("a list of types", [[KO, 0, 0, 0], [CE, 0, NONE, 0]], &OF_TYPE_LISTS),
    ("a list of terms", [[VA, 0, NONE, 0], [CE, 3, NONE, 0]], &OF_TERM_LISTS),
];

/// A base type, a constant, a hole, the target as record 4, two unused terms as records 5 and 6.
fn start(target: [[u32; 4]; 2]) -> Vec<[u32; 4]> {
    let heads = [[BT, 0, 0, 0], [KO, 0, 0, 0], [HO, NONE, 0, 0]];
    let unused = [[CA, 1, NONE, 0], [CA, 1, NONE, 0]];
    [heads.to_vec(), target.to_vec(), unused.to_vec()].concat()
}

fn referring(referrer: [u32; 4], other: u32) -> [u32; 4] {
    referrer.map(|field| match field {
        TARGET => 4,
        OTHER => other,
        same => same,
    })
}

fn entry(name: String, records: &[[u32; 4]], place: u32) -> Check {
    let records: Vec<Record> = records.iter().map(|&[tag, a, b, c]| Record::new(tag, a, b, c)).collect();
    Check::new(format!("uses: {name}"), &records, 5, place)
}

pub fn all() -> Vec<Check> {
    let mut list = Vec::new();
    for (kind, target, referrers) in TARGETS {
        for (first, one) in referrers {
            for (second, two) in referrers {
                let mut records = start(target);
                records.push(referring(*one, 5));
                records.push([BT, 9, 0, 0]);
                records.push(referring(*two, 6));
                records.push([BT, 9, 0, 0]);
                list.push(entry(format!("{kind} by {first}, then by {second}"), &records, 9));
            }
        }
        if referrers.len() == OF_TERMS.len() && kind != "a list of terms" {
            let both = [start(target), vec![[EQ, 4, 4, 0]]].concat();
            list.push(entry(format!("{kind} by both sides of one equation"), &both, 7));
        }
    }
    let third = [start(TARGETS[0].1), vec![[LA, 4, 0, 0], [LA, 4, 0, 0], [LA, 4, 0, 0]]].concat();
    list.push(entry("three times, broken by the second".to_string(), &third, 8));
    list
}
