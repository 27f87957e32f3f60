//! What must hold after answer 0: legal records, a typed filling, equal sides.

use crate::generate::problem::Problem;
use crate::reply::Reply;
use crate::selfcheck::filling::{fill_tree, run_filling, unifies, Filling, Unread};
use crate::selfcheck::legal::lowest_illegal;
use crate::selfcheck::reading::Reading;
use crate::selfcheck::typed::{context_scope, has_type};
use crate::words::*;

/// Trees larger than this are not looked at.
pub const BOUND: usize = 20_000;

/// Faults after answer 0, and the run's filling if it could be read.
pub fn solved_faults(before: &Problem, after: &Problem, reply: Reply) -> (Vec<String>, Option<Filling>) {
    let mut faults = record_faults(before, after, reply);
    let reading = Reading::new(&after.table, reply.used as usize);
    if !faults.is_empty() {
        return (faults, None);
    }
    match run_filling(&reading, &after.solutions, BOUND) {
        Err(Unread::TooLarge) => (faults, None),
        Err(Unread::Broken) => {
            faults.push("solutions are no filling".to_string());
            (faults, None)
        }
        Ok(filling) => {
            faults.extend(filling_faults(&reading, &after.solutions, &filling));
            (faults, Some(filling))
        }
    }
}

/// The new records and the solution words.
fn record_faults(before: &Problem, after: &Problem, reply: Reply) -> Vec<String> {
    let mut faults = Vec::new();
    let (n, used) = (before.n, reply.used as usize);
    let room = (before.table.len() / 4).min(4096);
    if used < n || used > room {
        return vec![format!("used {used} with n {n} and R {room}")];
    }
    if let Some(place) = lowest_illegal(&after.table, used) {
        faults.push(format!("record {place} written is illegal"));
    }
    let written = (n..used).map(|number| get(&after.table, number).tag);
    if !written.into_iter().all(|tag| [HO, CE, LA, CA, VA, HA].contains(&tag)) {
        faults.push("a new record is neither hole, cell nor term".to_string());
    }
    if after.table.iter().take(4 * room).skip(4 * used).any(|&word| word != 0) {
        faults.push("records past the used ones are not zero".to_string());
    }
    for (number, &word) in after.solutions.iter().take(room).enumerate() {
        let hole = number < used && get(&after.table, number).tag == HO;
        let term =
            (n..used).contains(&(word as usize)) && (LA..=HA).contains(&get(&after.table, word as usize).tag);
        if word != NONE && !(hole && term) {
            faults.push(format!("solution word {number} is {word}"));
        }
    }
    faults
}

/// Typing, equality of all sides, and that filling twice changes nothing.
fn filling_faults(reading: &Reading, solutions: &[u32], filling: &Filling) -> Vec<String> {
    let mut faults = Vec::new();
    let solved = |hole: &u32| solutions.get(*hole as usize).is_some_and(|&word| word != NONE);
    for (hole, tree) in filling {
        if !has_type(reading, tree, reading.base(*hole), &mut context_scope(reading, *hole)) {
            faults.push(format!("the answer of hole {hole} is ill-typed"));
        }
        let mut inside = Vec::new();
        tree.collect_holes(&mut inside);
        if inside.iter().any(solved) {
            faults.push(format!("a solved hole stands in the answer of hole {hole}"));
        }
        if fill_tree(filling, tree).as_ref() != Some(tree) {
            faults.push(format!("filling the answer of hole {hole} again changes it"));
        }
    }
    if !unifies(filling, &reading.equations()) {
        faults.push("an equation's sides are not equal under the answer".to_string());
    }
    faults
}
