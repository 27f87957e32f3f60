//! Kind y: tables with many types, all different but for one pair, if any.

use crate::random::Random;
use crate::words::*;

/// So many types and a small problem over the first of them.
pub fn many_types(random: &mut Random, count: usize) -> Vec<Record> {
    let mut records = different(random, count);
    if random.chance(80) {
        let to = if random.chance(80) { random.between(16, count - 1) } else { random.between(1, count - 1) };
        twin(&mut records, random, to);
    }
    let constant = records.len() as u32;
    records.push(Record::new(KO, 0, 0, 0));
    records.push(Record::new(CA, constant, NONE, 0));
    records.push(Record::new(CA, constant, NONE, 0));
    records.push(Record::new(EQ, constant + 1, constant + 2, 0));
    records
}

/// Base types and arrows in any order, the first a base type, all different.
fn different(random: &mut Random, count: usize) -> Vec<Record> {
    let arrows = random.pick(&[0, 20, 50, 80, 95]).unwrap_or(50);
    let shift = random.pick(&[0, 1, 7, 1 << 31]).unwrap_or(0);
    let mut records: Vec<Record> = Vec::new();
    for number in 0..count {
        let base = Record::new(BT, shift + number as u32, 0, 0);
        let below = |random: &mut Random| random.below(number) as u32;
        let arrow = Record::new(AR, below(random), below(random), 0);
        let fits = number > 0 && random.chance(arrows) && !records.contains(&arrow);
        records.push(if fits { arrow } else { base });
    }
    records
}

/// Makes one type like an earlier one of the same kind, near or far.
fn twin(records: &mut [Record], random: &mut Random, to: usize) {
    let from = if random.chance(30) { to - 1 } else { random.below(to) };
    let like = records.get(from).copied();
    if let (Some(like), Some(record)) = (like, records.get_mut(to)) {
        *record = like;
    }
}
