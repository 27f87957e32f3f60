//! Tags that are not known, unused fields that are not 0, base numbers and variable numbers.

use super::zoo::{zoo, zoo_and, NEXT, SPARE};
use super::Check;
use crate::words::*;

/// A whole record of each row, to stand after the zoo.
const ROWS: [(&str, [u32; 4]); 10] = [
    ("BT", [BT, 8, 0, 0]),
    ("AR", [AR, 1, 1, 0]),
    ("KO", [KO, 0, 0, 0]),
    ("HO", [HO, NONE, 0, 0]),
    ("CE", [CE, 0, NONE, 0]),
    ("LA", [LA, SPARE, 0, 0]),
    ("CA", [CA, 2, NONE, 0]),
    ("VA", [VA, 0, NONE, 0]),
    ("HA", [HA, 3, NONE, 0]),
    ("EQ", [EQ, SPARE, 10, 0]),
];

/// The unused fields: tag, field, a record of the zoo with that tag.
const UNUSED: [(u32, usize, usize); 12] = [
    (BT, 2, 0),
    (BT, 3, 0),
    (AR, 3, 1),
    (KO, 2, 2),
    (KO, 3, 2),
    (HO, 3, 3),
    (CE, 3, 6),
    (LA, 2, 8),
    (LA, 3, 8),
    (CA, 3, 12),
    (VA, 3, 5),
    (HA, 3, 10),
];

fn of([tag, a, b, c]: [u32; 4]) -> Record {
    Record::new(tag, a, b, c)
}

fn with(fields: [u32; 4], field: usize, value: u32) -> Record {
    let mut fields = fields;
    fields.iter_mut().skip(field).take(1).for_each(|slot| *slot = value);
    of(fields)
}

fn replaced(number: usize, field: usize, value: u32) -> Vec<Record> {
    let mut records = zoo();
    for r in records.iter_mut().skip(number).take(1) {
        *r = with([r.tag, r.a, r.b, r.c], field, value);
    }
    records
}

fn tags() -> Vec<Check> {
    let mut list = Vec::new();
    for tag in [0, 11, 12, 255, 257, 65_537, 1 << 31, NONE] {
        let name = |at: &str| format!("fields: tag {tag} {at}");
        list.push(Check::new(name("at the start"), &replaced(0, 0, tag), 5, 0));
        list.push(Check::new(name("in the middle"), &replaced(9, 0, tag), 5, 9));
        list.push(Check::new(name("at the end"), &zoo_and(Record::new(tag, 0, 0, 0)), 5, NEXT));
    }
    list
}

fn unused() -> Vec<Check> {
    let mut list = Vec::new();
    for (tag, field, number) in UNUSED {
        let (mark, row) = ROWS[tag as usize - 1];
        for value in [1, 1 << 31, NONE] {
            let name = format!("fields: unused field {field} of {mark} is {value}");
            list.push(Check::new(name, &zoo_and(with(row, field, value)), 5, NEXT));
        }
        let name = format!("fields: unused field {field} of {mark} is 1 in the middle");
        list.push(Check::new(name, &replaced(number, field, 1), 5, number as u32));
    }
    list
}

fn numbers() -> Vec<Check> {
    let mut list = Vec::new();
    for base in [0, 1, 4096, 1 << 31, NONE] {
        let name = format!("fields: base number {base}");
        list.push(Check::new(name, &zoo_and(Record::new(BT, base, 0, 0)), 0, 0));
    }
    for number in [0, 4094, 4095, 4096, 4097, 65_536, 1 << 31, NONE - 1, NONE] {
        let (answer, place) = if number < 4096 { (0, 0) } else { (5, NEXT) };
        let bare = zoo_and(Record::new(VA, number, NONE, 0));
        list.push(Check::new(format!("fields: variable number {number}"), &bare, answer, place));
        let applied = zoo_and(Record::new(VA, number, 6, 0));
        list.push(Check::new(format!("fields: variable number {number}, applied"), &applied, answer, place));
    }
    list
}

pub fn all() -> Vec<Check> {
    let mut list = vec![Check::new("fields: a record of every kind", &zoo(), 0, 0)];
    list.extend(ROWS.map(|(mark, row)| Check::new(format!("fields: whole {mark}"), &zoo_and(of(row)), 0, 0)));
    list.extend(tags());
    list.extend(unused());
    list.extend(numbers());
    list
}
