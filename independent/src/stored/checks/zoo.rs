//! A table with a record of every kind, each term and list of which is still unused.

use crate::words::*;

/// The number the next record would have.
pub const NEXT: u32 = 16;
/// An applied constant that nothing refers to.
pub const SPARE: u32 = 15;

/// What stands at which number: a name for each kind and its record.
pub const KINDS: [(&str, u32); 11] = [
    ("a base type", 0),
    ("an arrow type", 1),
    ("a constant", 2),
    ("a hole", 3),
    ("a list of types", 4),
    ("a list of terms", 6),
    ("a lambda", 8),
    ("an applied constant", 9),
    ("an applied hole", 10),
    ("an applied variable", 11),
    ("an equation", 14),
];

/// The records; they keep every rule.
pub fn zoo() -> Vec<Record> {
    let records = [
        (BT, 7, 0, 0),
        (AR, 0, 0, 0),
        (KO, 0, 0, 0),
        (HO, NONE, 0, 0),
        (CE, 0, NONE, 0),
        (VA, 0, NONE, 0),
        (CE, 5, NONE, 0),
        (VA, 0, NONE, 0),
        (LA, 7, 0, 0),
        (CA, 2, NONE, 0),
        (HA, 3, NONE, 0),
        (VA, 1, NONE, 0),
        (CA, 2, NONE, 0),
        (CA, 2, NONE, 0),
        (EQ, 12, 13, 0),
        (CA, 2, NONE, 0),
    ];
    records.map(|(tag, a, b, c)| Record::new(tag, a, b, c)).to_vec()
}

/// The zoo and one record more.
pub fn zoo_and(record: Record) -> Vec<Record> {
    let mut records = zoo();
    records.push(record);
    records
}
