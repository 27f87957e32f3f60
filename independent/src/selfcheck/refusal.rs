//! The refusals once more: which of 4, 5, 10, 6, 7 a call must answer.

use crate::reply::Reply;
use crate::selfcheck::legal::lowest_illegal;
use crate::selfcheck::reading::Reading;
use crate::selfcheck::typed::has_type;
use crate::words::*;

/// The refusal expected before the machine runs, if any; `hole` is show's.
pub fn expected_refusal(table: &[u32], n: usize, solutions: usize, hole: Option<usize>) -> Option<Reply> {
    let room = (table.len() / 4).min(4096);
    if n > room || solutions < room {
        return Some(Reply::new(4, 0, 0));
    }
    if let Some(place) = lowest_illegal(table, n) {
        return Some(Reply::new(5, place as u32, 0));
    }
    if hole.is_some_and(|hole| hole >= n || get(table, hole).tag != HO) {
        return Some(Reply::new(10, 0, 0));
    }
    let reading = Reading::new(table, n);
    let ill_typed = reading.equations().into_iter().find(|(_, left, right, at)| {
        !has_type(&reading, left, *at, &mut Vec::new()) || !has_type(&reading, right, *at, &mut Vec::new())
    });
    if let Some((place, ..)) = ill_typed {
        return Some(Reply::new(6, place, 0));
    }
    lowest_no_pattern(&reading).map(|place| Reply::new(7, place, 0))
}

/// The lowest occurrence that is no pattern, found by going up from each to an equation.
fn lowest_no_pattern(reading: &Reading) -> Option<u32> {
    let parents = parents(reading);
    let reached = |occurrence: u32| {
        let mut at = occurrence;
        while let Some(Some(parent)) = parents.get(at as usize).copied() {
            at = parent;
        }
        reading.record(at).tag == EQ
    };
    reading.tagged(HA).into_iter().find(|&number| !is_pattern(reading, number) && reached(number))
}

fn is_pattern(reading: &Reading, occurrence: u32) -> bool {
    let arguments = elements(reading.words, reading.record(occurrence).b);
    let records: Vec<Record> = arguments.into_iter().map(|argument| reading.record(argument)).collect();
    let bare = records.iter().all(|record| record.tag == VA && record.b == NONE);
    let mut numbers: Vec<u32> = records.iter().map(|record| record.a).collect();
    numbers.sort_unstable();
    bare && numbers.windows(2).all(|two| two.first() != two.last())
}

/// The one record that refers to each term or cell.
fn parents(reading: &Reading) -> Vec<Option<u32>> {
    let mut parents = vec![None; reading.count];
    for number in 0..reading.count as u32 {
        let record = reading.record(number);
        let children = match record.tag {
            LA => [record.a, NONE],
            CA | VA | HA => [NONE, record.b],
            CE | EQ => [record.a, record.b],
            _ => [NONE, NONE],
        };
        for child in children {
            if let Some(slot) = parents.get_mut(child as usize) {
                *slot = Some(number);
            }
        }
    }
    parents
}
