//! Records as words: a record is four u32 words, records are numbered from 0.

/// The word that stands for "no record".
pub const NONE: u32 = u32::MAX;
/// The most records a table or an output counts for.
pub const MOST_RECORDS: usize = 4096;
/// The most pairs a queue counts for.
pub const MOST_PAIRS: usize = 1024;
/// The most cells a list may have.
pub const MOST_CELLS: usize = 16;
/// Variable numbers in input records are below this.
pub const MOST_VARIABLES: u32 = 4096;

pub const BT: u32 = 1;
pub const AR: u32 = 2;
pub const KO: u32 = 3;
pub const HO: u32 = 4;
pub const CE: u32 = 5;
pub const LA: u32 = 6;
pub const CA: u32 = 7;
pub const VA: u32 = 8;
pub const HA: u32 = 9;
pub const EQ: u32 = 10;

/// The marks of tags 1 to 10, in order.
pub const MARKS: [&str; 10] = ["BT", "AR", "KO", "HO", "CE", "LA", "CA", "VA", "HA", "EQ"];

/// One record: a tag and three fields.
#[derive(Clone, Copy, Debug, PartialEq, Eq)]
pub struct Record {
    pub tag: u32,
    pub a: u32,
    pub b: u32,
    pub c: u32,
}

impl Record {
    pub fn new(tag: u32, a: u32, b: u32, c: u32) -> Record {
        Record { tag, a, b, c }
    }
}

/// How many records a slice of words counts for.
pub fn room(words: &[u32]) -> usize {
    (words.len() / 4).min(MOST_RECORDS)
}

/// How many pairs a slice of words counts for.
pub fn pairs_room(words: &[u32]) -> usize {
    (words.len() / 2).min(MOST_PAIRS)
}

/// Reads a record; outside the words all its fields are 0.
pub fn get(words: &[u32], number: usize) -> Record {
    let word = |k: usize| -> u32 {
        let at = number.checked_mul(4).and_then(|w| w.checked_add(k));
        at.and_then(|w| words.get(w)).copied().unwrap_or(0)
    };
    Record::new(word(0), word(1), word(2), word(3))
}

/// Writes a record; outside the words nothing happens.
pub fn put(words: &mut [u32], number: usize, record: Record) {
    let fields = [record.tag, record.a, record.b, record.c];
    for (word, field) in words.iter_mut().skip(number.saturating_mul(4)).zip(fields) {
        *word = field;
    }
}

/// Sets the words from `from` up to (not including) `to`; words outside the slice are left out.
pub fn fill(words: &mut [u32], from: usize, to: usize, value: u32) {
    let count = to.saturating_sub(from);
    for word in words.iter_mut().skip(from).take(count) {
        *word = value;
    }
}

/// The elements of the list that starts at the cell `first` (NONE: no element), at most 16.
pub fn elements(words: &[u32], first: u32) -> Vec<u32> {
    let mut found = Vec::new();
    let mut cell = first;
    while cell != NONE && found.len() < MOST_CELLS {
        let record = get(words, cell as usize);
        found.push(record.a);
        cell = record.b;
    }
    found
}
