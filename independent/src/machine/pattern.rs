//! Answer 7: every hole occurrence reached from an equation has different bare variables.

use crate::words::*;

/// The lowest offending hole occurrence, in a table that keeps the records rules.
pub fn lowest_offending(table: &[u32], n: usize) -> Option<usize> {
    let mut lowest: Option<usize> = None;
    let mut waiting = Vec::new();
    for number in 0..n {
        let record = get(table, number);
        if record.tag == EQ {
            waiting.extend([record.a, record.b]);
        }
    }
    while let Some(term) = waiting.pop() {
        let record = get(table, term as usize);
        if record.tag == LA {
            waiting.push(record.a);
            continue;
        }
        let arguments = elements(table, record.b);
        if record.tag == HA && !all_different_variables(table, &arguments) {
            let here = term as usize;
            lowest = Some(lowest.map_or(here, |low| low.min(here)));
        }
        waiting.extend(arguments);
    }
    lowest
}

fn all_different_variables(table: &[u32], arguments: &[u32]) -> bool {
    let mut seen = Vec::new();
    for &argument in arguments {
        let record = get(table, argument as usize);
        if record.tag != VA || record.b != NONE || seen.contains(&record.a) {
            return false;
        }
        seen.push(record.a);
    }
    true
}
