//! Lists that are mixed or too long, referred to or not.

use super::Check;
use crate::words::*;

/// A base type, a constant and a hole: records 0 to 2.
fn start() -> Vec<Record> {
    vec![Record::new(BT, 0, 0, 0), Record::new(KO, 0, 0, 0), Record::new(HO, NONE, 0, 0)]
}

/// A list laid from its last cell to its first, true for a term; the numbers of its cells.
fn laid(records: &mut Vec<Record>, from_the_end: &[bool]) -> Vec<u32> {
    let mut elements = Vec::new();
    for &is_term in from_the_end {
        elements.push(if is_term { records.len() as u32 } else { 0 });
        if is_term {
            records.push(Record::new(VA, 0, NONE, 0));
        }
    }
    let mut cells = Vec::new();
    let mut rest = NONE;
    for element in elements {
        records.push(Record::new(CE, element, rest, 0));
        rest = records.len() as u32 - 1;
        cells.push(rest);
    }
    cells
}

/// All lists of two and of three cells; broken at the first cell of another kind than its rest.
fn mixed() -> Vec<Check> {
    let mut list = Vec::new();
    for length in [2, 3] {
        for code in 0..1u32 << length {
            let kinds: Vec<bool> = (0..length).map(|at| code >> at & 1 == 1).collect();
            let mut records = start();
            let cells = laid(&mut records, &kinds);
            let change = (1..length).find(|&at| kinds[at] != kinds[at - 1]);
            let spelled: Vec<&str> = kinds.iter().map(|&k| if k { "term" } else { "type" }).collect();
            let name = format!("lists: from the end {}", spelled.join(", "));
            let (answer, place) = change.map_or((0, 0), |at| (5, cells[at]));
            list.push(Check::new(name, &records, answer, place));
        }
    }
    list
}

/// Who refers to a list of types, or of terms, or nobody.
const OF_TYPES: [Option<[u32; 2]>; 2] = [None, Some([HO, NONE])];
const OF_TERMS: [Option<[u32; 2]>; 4] = [None, Some([CA, 1]), Some([VA, 0]), Some([HA, 2])];

fn referring(head: [u32; 2], list: u32) -> Record {
    let [tag, a] = head;
    if tag == HO {
        Record::new(HO, list, 0, 0)
    } else {
        Record::new(tag, a, list, 0)
    }
}

/// Lists of this many cells, all types or all terms, broken at the seventeenth from the end.
fn long(length: usize, is_term: bool, by: Option<[u32; 2]>) -> Check {
    let mut records = start();
    let cells = laid(&mut records, &vec![is_term; length]);
    if let (Some(head), Some(&first)) = (by, cells.last()) {
        records.push(referring(head, first));
    }
    let kind = if is_term { "terms" } else { "types" };
    let mark = by.map_or("nothing", |[tag, _]| MARKS[tag as usize - 1]);
    let name = format!("lists: {length} {kind}, referred to by {mark}");
    let (answer, place) = cells.get(16).map_or((0, 0), |&cell| (5, cell));
    Check::new(name, &records, answer, place)
}

/// A list of 17 cells that is also mixed, at the cell `at` counted from the end.
fn long_and_mixed(at: usize) -> Check {
    let mut records = start();
    let kinds: Vec<bool> = (0..17).map(|cell| cell >= at).collect();
    let cells = laid(&mut records, &kinds);
    Check::new(format!("lists: 17 cells, mixed from cell {at}"), &records, 5, cells[at])
}

pub fn all() -> Vec<Check> {
    let mut list = mixed();
    for length in [1, 2, 15, 16, 17, 18] {
        list.extend(OF_TYPES.map(|by| long(length, false, by)));
    }
    for length in [1, 2, 15, 16, 17, 18] {
        list.extend(OF_TERMS.map(|by| long(length, true, by)));
    }
    list.extend([1, 8, 15, 16].map(long_and_mixed));
    list
}
