//! Long tables to be written: n at 2,047 to 2,049 and at 4,096 and 4,097, also after solving.

use crate::generate::append::Editor;
use crate::generate::edit::{change_field, change_tag};
use crate::generate::problem::table_of;
use crate::generate::{typed, Scale};
use crate::machine::solve::solve;
use crate::random::Random;
use crate::words::*;
use crate::write::MOST_WRITTEN;

/// A long table and n.
pub fn long(random: &mut Random) -> (Vec<u32>, usize) {
    match random.below(10) {
        0..=3 => long_after_solving(random),
        4..=7 => padded(random, MOST_WRITTEN),
        _ => padded(random, MOST_RECORDS),
    }
}

/// A legal table, or one with a late record changed; its number of records is near `limit`.
fn padded(random: &mut Random, limit: usize) -> (Vec<u32>, usize) {
    let mut editor = Editor::new(&typed(random, Scale::Usual, 0).records);
    let count = limit - 1 + random.below(4);
    editor.pad(random, count);
    let mut records = editor.records;
    let late = count - 1 - random.below(3);
    match random.below(4) {
        0 => change_field(&mut records, random, late),
        1 => change_tag(&mut records, random, late),
        _ => {}
    }
    let spare = if random.chance(50) { 0 } else { random.below(4) };
    let words = 4 * (count + spare) + random.below(4);
    let table = table_of(&records, words, random);
    let limits = [limit - 1, limit, limit + 1, room(&table), room(&table) + 1];
    let n = if random.chance(50) { count } else { random.pick(&limits).unwrap_or(count) };
    (table, n)
}

/// What solving left of a problem with so many records that used is near 2,048.
fn long_after_solving(random: &mut Random) -> (Vec<u32>, usize) {
    for _ in 0..12 {
        let mut editor = Editor::new(&typed(random, Scale::Usual, 0).records);
        let count = editor.records.len();
        let Some((_, used)) = solved(&editor.records, random) else { continue };
        let aim = MOST_WRITTEN - 1 + random.below(3) + count;
        editor.pad(random, aim.saturating_sub(used));
        if let Some(left) = solved(&editor.records, random) {
            return left;
        }
    }
    (Vec::new(), 0)
}

/// The table that solving leaves in full room and the records used, if the answer is 0.
fn solved(records: &[Record], random: &mut Random) -> Option<(Vec<u32>, usize)> {
    let words = 4 * MOST_RECORDS + random.below(6);
    let mut table = table_of(records, words, random);
    let mut solutions = vec![NONE; MOST_RECORDS];
    let mut queue = vec![0; 2 * MOST_PAIRS];
    let reply = solve(&mut table, records.len(), &mut solutions, &mut queue);
    (reply.answer == 0).then_some((table, reply.used as usize))
}
