//! Edits in memory that may break a rule: a field or a tag changed, a record used twice.

use crate::random::Random;
use crate::words::*;

/// Changes one field of the record, often to a value just past what it may be.
pub fn change_field(records: &mut [Record], random: &mut Random, number: usize) {
    let count = records.len();
    let Some(record) = records.get_mut(number) else { return };
    let field = match random.below(3) {
        0 => &mut record.a,
        1 => &mut record.b,
        _ => &mut record.c,
    };
    let at = number as u32;
    *field = match random.below(8) {
        0 => random.pick(&[0, 1, MOST_VARIABLES - 1, MOST_VARIABLES, NONE - 1, NONE]).unwrap_or(0),
        1 => at,
        2 => at.wrapping_sub(1),
        3 => at + 1,
        4 => field.wrapping_add(1),
        5 => field.wrapping_sub(1),
        6 => random.word(),
        _ => random.below(count) as u32,
    };
}

/// Changes the tag of the record to another, known or not.
pub fn change_tag(records: &mut [Record], random: &mut Random, number: usize) {
    let Some(record) = records.get_mut(number) else { return };
    record.tag = match random.below(5) {
        0 => random.pick(&[0, EQ + 1, EQ + 2, NONE]).unwrap_or(0),
        1 => record.tag | random.pick(&[1 << 8, 1 << 16, 1 << 31]).unwrap_or(1 << 8),
        2 => record.tag.wrapping_add(1),
        3 => record.tag.wrapping_sub(1),
        _ => random.between(BT as usize, EQ as usize) as u32,
    };
}

/// Makes a record of tag 5 to 9 used twice: by two records, or by one.
pub fn use_twice(records: &mut Vec<Record>, random: &mut Random) {
    match random.below(4) {
        0 => both_sides(records, random),
        1 => same_field(records, random),
        _ => one_more(records, random),
    }
}

fn numbers(records: &[Record], fits: impl Fn(&Record) -> bool) -> Vec<usize> {
    (0..records.len()).filter(|&number| records.get(number).is_some_and(&fits)).collect()
}

/// An equation of a term and itself.
fn both_sides(records: &mut [Record], random: &mut Random) {
    let chosen = random.pick(&numbers(records, |record| record.tag == EQ));
    if let Some(record) = chosen.and_then(|number| records.get_mut(number)) {
        record.b = record.a;
    }
}

/// Two records of one tag with one field equal.
fn same_field(records: &mut [Record], random: &mut Random) {
    let tag = random.between(HO as usize, EQ as usize) as u32;
    let alike = numbers(records, |record| record.tag == tag);
    let (Some(from), Some(to)) = (random.pick(&alike), random.pick(&alike)) else { return };
    let Some(model) = records.get(from).copied() else { return };
    if let Some(record) = records.get_mut(to) {
        match tag {
            HO | LA => record.a = model.a,
            CE | EQ if random.chance(50) => record.a = model.a,
            _ => record.b = model.b,
        }
    }
}

/// One more record that refers to some term or list, which most often is used already.
fn one_more(records: &mut Vec<Record>, random: &mut Random) {
    let first = |tag: u32| records.iter().position(|record| record.tag == tag).unwrap_or(0) as u32;
    let Some(chosen) = random.pick(&numbers(records, |record| (CE..=HA).contains(&record.tag))) else {
        return;
    };
    let to = chosen as u32;
    let of_terms = [Record::new(LA, to, 0, 0), Record::new(CE, to, NONE, 0)];
    let of_lists = [
        Record::new(HO, to, first(BT), 0),
        Record::new(CE, first(BT), to, 0),
        Record::new(CA, first(KO), to, 0),
        Record::new(VA, 0, to, 0),
        Record::new(HA, first(HO), to, 0),
    ];
    let is_list = records.get(chosen).is_some_and(|record| record.tag == CE);
    records.extend(random.pick(if is_list { &of_lists[..] } else { &of_terms[..] }));
}
