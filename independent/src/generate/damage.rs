//! Kind d: a valid problem with one rule broken, mostly a rule of the records section.

use crate::random::Random;
use crate::words::*;

/// The number of ways to break a problem.
const WAYS: usize = 18;

/// Breaks the records in some way; a way that finds nothing to break leaves them whole.
pub fn damage(records: &mut Vec<Record>, random: &mut Random) {
    let way = random.below(WAYS);
    match way {
        0 => change(records, random, |_| true, |r, x| r.tag = x.pick(&[0, 11, 12, NONE]).unwrap_or(0)),
        1 => change(records, random, |r| r.tag != EQ, |r, x| r.c = x.between(1, 9) as u32),
        2 => change(records, random, |r| [BT, KO, LA].contains(&r.tag), |r, x| r.b = x.word() | 1),
        3 => upward(records, random),
        4 => change(records, random, |r| ![BT, VA].contains(&r.tag), |r, x| r.a = x.below(12) as u32),
        5 => change(records, random, |r| r.tag > HO, |r, x| r.b = x.below(30) as u32),
        6 => second_use(records, random),
        7 => equal_types(records, random),
        8 => change(records, random, |r| r.tag == CE, |r, x| r.a = x.below(3) as u32),
        9 => long_list(records, random),
        10 => change(
            records,
            random,
            |r| r.tag == VA,
            |r, x| r.a = x.pick(&[4095, 4096, 4097, NONE]).unwrap_or(0),
        ),
        11 => change(records, random, |r| r.tag == HO, |r, x| r.b = x.below(8) as u32),
        12 => change(records, random, |r| r.tag == HO, |r, x| r.a = x.pick(&[0, 1, NONE]).unwrap_or(0)),
        13 => change(records, random, |r| ![BT, VA].contains(&r.tag), |r, _| r.a = NONE),
        14 => change(records, random, |r| r.tag == EQ, |r, x| r.c = x.below(8) as u32),
        15 => change(records, random, |r| r.tag == VA, |r, x| r.a = x.below(6) as u32),
        16 => change(records, random, |r| [CA, VA, HA].contains(&r.tag), |r, _| r.b = NONE),
        _ => wrong_list(records, random),
    }
}

/// Changes one record among those that fit.
fn change(
    records: &mut [Record],
    random: &mut Random,
    fits: impl Fn(&Record) -> bool,
    how: impl Fn(&mut Record, &mut Random),
) {
    let mut fitting: Vec<&mut Record> = records.iter_mut().filter(|r| fits(r)).collect();
    let chosen = random.below(fitting.len());
    if let Some(record) = fitting.get_mut(chosen) {
        how(record, random);
    }
}

/// A reference to the record itself or a higher one.
fn upward(records: &mut [Record], random: &mut Random) {
    let count = records.len();
    let start = random.below(count);
    let with_reference = |r: &Record| ![BT, VA].contains(&r.tag);
    let found = (0..count).map(|k| (start + k) % count).find(|&k| records.get(k).is_some_and(with_reference));
    let Some(number) = found else { return };
    if let Some(record) = records.get_mut(number) {
        record.a = (number + random.below(3)) as u32;
    }
}

/// Two references to one term or list.
fn second_use(records: &mut Vec<Record>, random: &mut Random) {
    let terms: Vec<u32> = records.iter().filter(|r| r.tag == LA).map(|r| r.a).collect();
    match random.below(4) {
        0 | 1 => list_again(records, random),
        2 => change(records, random, |r| r.tag == EQ, |r, _| r.b = r.a),
        _ => {
            let term = random.pick(&terms).unwrap_or(0);
            change(records, random, |r| [CE, LA, EQ].contains(&r.tag), |r, _| r.a = term);
        }
    }
}

/// One more record that refers to a list, by each tag that can.
fn list_again(records: &mut Vec<Record>, random: &mut Random) {
    let tag_of = |number: u32| records.get(number as usize).map_or(0, |r| r.tag);
    let is_term = |cell: &Record| (LA..=HA).contains(&tag_of(cell.a));
    let cells: Vec<(u32, Record)> =
        (0..).zip(records.iter().copied()).filter(|(_, record)| record.tag == CE).collect();
    let Some((list, cell)) = random.pick(&cells) else { return };
    let first = |tag: u32| records.iter().position(|r| r.tag == tag).unwrap_or(0) as u32;
    let mut referring = vec![Record::new(HO, list, first(BT), 0), Record::new(CE, first(BT), list, 0)];
    if is_term(&cell) {
        let (constant, hole) = (first(KO), first(HO));
        referring = vec![Record::new(VA, 0, list, 0), Record::new(CA, constant, list, 0)];
        referring.push(Record::new(HA, hole, list, 0));
    }
    referring.truncate(if random.chance(80) { 3 } else { 1 });
    records.extend(random.pick(&referring));
}

/// Two type records with equal words.
fn equal_types(records: &mut Vec<Record>, random: &mut Random) {
    let types: Vec<Record> = records.iter().filter(|r| [BT, AR].contains(&r.tag)).copied().collect();
    let Some(twin) = random.pick(&types) else { return };
    if random.chance(50) {
        records.push(twin);
    } else {
        change(records, random, |r| r.tag == twin.tag, |r, _| *r = twin);
    }
}

/// A list of 16 to 18 cells at the end, perhaps with something that refers to it.
fn long_list(records: &mut Vec<Record>, random: &mut Random) {
    let cells = random.between(16, 18);
    let of_types = random.chance(50);
    let mut rest = NONE;
    for _ in 0..cells {
        let element = if of_types { 0 } else { records.len() as u32 };
        if !of_types {
            records.push(Record::new(VA, 0, NONE, 0));
        }
        records.push(Record::new(CE, element, rest, 0));
        rest = records.len() as u32 - 1;
    }
    if random.chance(50) {
        let head = if of_types { Record::new(HO, rest, 0, 0) } else { Record::new(VA, 1, rest, 0) };
        records.push(head);
    }
}

/// A list of types where terms are asked, or the reverse, or a mixed list.
fn wrong_list(records: &mut Vec<Record>, random: &mut Random) {
    let next = records.len() as u32;
    if random.chance(30) {
        records.push(Record::new(CE, 0, NONE, 0));
        let twice = if random.chance(50) { VA } else { CA };
        records.push(Record::new(twice, 2, next, 0));
    } else if random.chance(50) {
        records.push(Record::new(VA, 0, NONE, 0));
        records.push(Record::new(CE, next, NONE, 0));
        records.push(Record::new(HO, next + 1, 0, 0));
    } else {
        records.push(Record::new(VA, 0, NONE, 0));
        records.push(Record::new(CE, next, NONE, 0));
        records.push(Record::new(CE, 0, next + 1, 0));
        records.push(Record::new(CE, 0, next + 2, 0));
    }
}
