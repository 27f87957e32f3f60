//! Problem files: valid ones, with damaged marks or lengths, of many sizes.

use crate::generate::problem::litter;
use crate::generate::{some_made, Scale};
use crate::random::Random;
use crate::read::{encode, MOST_BYTES, RECORD_BYTES};
use crate::words::*;

/// A file and the table lent to read it into.
#[derive(Clone, Debug)]
pub struct FileProblem {
    pub file: Vec<u8>,
    pub table: Vec<u32>,
}

/// The file problem of a seed and an index.
pub fn file_problem(seed: u64, index: u64, scale: Scale) -> FileProblem {
    let mut random = Random::of_pair(seed ^ 0xF11E, index);
    let mut file = some_file(&mut random, scale);
    spoil(&mut file, &mut random);
    let records = file.len() / RECORD_BYTES;
    let words = match random.below(6) {
        0 => (4 * records).saturating_sub(random.below(6)),
        1 => 4 * records,
        2 if scale == Scale::Usual && random.chance(20) => 4 * MOST_RECORDS + random.below(6),
        _ => 4 * records + random.below(50),
    };
    FileProblem { table: litter(&mut random, words), file }
}

fn some_file(random: &mut Random, scale: Scale) -> Vec<u8> {
    let whole = MOST_BYTES / RECORD_BYTES;
    let at_the_limit = scale == Scale::Usual && random.chance(4);
    if at_the_limit || random.chance(4) {
        let limit = [whole - 1, whole, whole + 1];
        let count = if at_the_limit { random.pick(&limit).unwrap_or(whole) } else { random.below(4) };
        let record = Record::new(BT, 0, 0, 0);
        let each = |number: usize| encode(Record { a: number as u32, ..record }).unwrap_or_default();
        return (0..count).flat_map(each).collect();
    }
    let records = some_made(random, scale).records;
    records.into_iter().flat_map(|record| encode(record).unwrap_or_default()).collect()
}

fn spoil(file: &mut Vec<u8>, random: &mut Random) {
    match random.below(8) {
        0 => file.truncate(file.len().saturating_sub(1 + random.below(13))),
        1 => file.extend((0..1 + random.below(13)).map(|_| b'B')),
        2 | 3 => {
            for _ in 0..random.between(1, 2) {
                spoil_mark(file, random);
            }
        }
        4 => {
            let at = random.below(file.len());
            let byte = random.word() as u8;
            file.iter_mut().skip(at).take(1).for_each(|slot| *slot = byte);
        }
        _ => {}
    }
}

fn spoil_mark(file: &mut [u8], random: &mut Random) {
    let at = RECORD_BYTES * random.below(file.len() / RECORD_BYTES);
    let marks: [&[u8; 2]; 6] = [b"bt", b"XY", b"TB", b"B ", b"\0\0", b"\xFF\xFE"];
    let mark = random.pick(&marks).unwrap_or(b"XY");
    for (slot, byte) in file.iter_mut().skip(at).zip(mark) {
        *slot = *byte;
    }
}
