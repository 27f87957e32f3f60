//! Every reference field of every row of the record table, led to every kind of target.

use super::zoo::{zoo_and, KINDS, NEXT, SPARE};
use super::Check;
use crate::words::*;

/// A reference field: its name, a record, which field of it, the targets that are right.
struct Place {
    name: &'static str,
    record: [u32; 4],
    field: usize,
    right: &'static [u32],
}

const fn place(name: &'static str, record: [u32; 4], field: usize, right: &'static [u32]) -> Place {
    Place { name, record, field, right }
}

const TYPES: &[u32] = &[0, 1];
const TERMS: &[u32] = &[8, 9, 10, 11];
const TYPE_LIST: &[u32] = &[4, NONE];
const TERM_LIST: &[u32] = &[6, NONE];

const PLACES: [Place; 17] = [
    place("arrow's domain", [AR, 0, 1, 0], 1, TYPES),
    place("arrow's result", [AR, 1, 0, 0], 2, TYPES),
    place("constant's type", [KO, 0, 0, 0], 1, TYPES),
    place("hole's context", [HO, 0, 0, 0], 1, TYPE_LIST),
    place("hole's base type", [HO, NONE, 0, 0], 2, &[0]),
    place("cell's element", [CE, 0, NONE, 0], 1, &[0, 1, 8, 9, 10, 11]),
    place("rest after a type", [CE, 0, NONE, 0], 2, TYPE_LIST),
    place("rest after a term", [CE, SPARE, NONE, 0], 2, TERM_LIST),
    place("lambda's body", [LA, 0, 0, 0], 1, TERMS),
    place("applied constant's constant", [CA, 0, NONE, 0], 1, &[2]),
    place("applied constant's list", [CA, 2, 0, 0], 2, TERM_LIST),
    place("applied variable's list", [VA, 0, 0, 0], 2, TERM_LIST),
    place("applied hole's hole", [HA, 0, NONE, 0], 1, &[3]),
    place("applied hole's list", [HA, 3, 0, 0], 2, TERM_LIST),
    place("equation's left side", [EQ, 0, SPARE, 0], 1, TERMS),
    place("equation's right side", [EQ, SPARE, 0, 0], 2, TERMS),
    place("equation's type", [EQ, SPARE, 10, 0], 3, TYPES),
];

/// An equation that keeps the records' rules may still be ill-typed: a lambda (8) or a variable
/// without binder (11) as a side at a base type, or two applications at an arrow type (1).
fn ill_typed(place: &Place, target: u32) -> bool {
    let [tag, ..] = place.record;
    tag == EQ && (if place.field == 3 { target == 1 } else { [8, 11].contains(&target) })
}

fn record(place: &Place, target: u32) -> Record {
    let mut fields = place.record;
    fields.iter_mut().skip(place.field).take(1).for_each(|field| *field = target);
    let [tag, a, b, c] = fields;
    Record::new(tag, a, b, c)
}

fn entry(place: &Place, target: u32, kind: &str) -> Check {
    let answer = match place.right.contains(&target) {
        false => 5,
        true if ill_typed(place, target) => 6,
        true => 0,
    };
    let at = if answer == 0 { 0 } else { NEXT };
    let name = format!("references: {} is {kind}", place.name);
    Check::new(name, &zoo_and(record(place, target)), answer, at)
}

/// A broken record with whole ones and another broken one after it.
fn in_the_middle(place: &Place) -> Check {
    let mut records = zoo_and(record(place, 14));
    records.push(Record::new(BT, 8, 0, 0));
    records.push(record(place, 14));
    Check::new(format!("references: {} is wrong, and again later", place.name), &records, 5, NEXT)
}

pub fn all() -> Vec<Check> {
    let mut list = Vec::new();
    for place in &PLACES {
        list.extend(KINDS.iter().map(|&(kind, target)| entry(place, target, kind)));
        let first = place.right.first().copied().unwrap_or(0);
        let others = [
            ("itself", NEXT),
            ("the record above", NEXT + 1),
            ("a right one plus 65,536", first + 65_536),
            ("a right one plus 2^31", first + (1 << 31)),
            ("NONE minus 1", NONE - 1),
            ("NONE", NONE),
        ];
        list.extend(others.map(|(kind, target)| entry(place, target, kind)));
        list.push(in_the_middle(place));
    }
    list
}
