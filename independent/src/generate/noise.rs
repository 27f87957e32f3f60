//! Kind r: random words in several mixes.

use crate::random::Random;
use crate::words::*;

/// So many records of random words.
pub fn noise(random: &mut Random, count: usize) -> Vec<Record> {
    let mix = random.below(4);
    (0..count).map(|number| record(random, mix, number)).collect()
}

fn record(random: &mut Random, mix: usize, number: usize) -> Record {
    match mix {
        0 => Record::new(random.word(), random.word(), random.word(), random.word()),
        1 => {
            let mut small = || random.below(13) as u32;
            Record::new(small(), small(), small(), small())
        }
        2 => {
            let tag = random.below(12) as u32;
            Record::new(tag, field(random, number), field(random, number), 0)
        }
        _ => likely(random, number),
    }
}

fn field(random: &mut Random, number: usize) -> u32 {
    if random.chance(25) {
        NONE
    } else {
        random.below(number + 1) as u32
    }
}

/// A record that keeps the rules more often than not.
fn likely(random: &mut Random, number: usize) -> Record {
    if number < 2 {
        return if number == 0 { Record::new(BT, 7, 0, 0) } else { Record::new(KO, 0, 0, 0) };
    }
    let before = random.below(number) as u32;
    match random.below(10) {
        0 => Record::new(BT, random.below(50) as u32, 0, 0),
        1 => Record::new(KO, 0, 0, 0),
        2 => Record::new(HO, NONE, 0, 0),
        3 => Record::new(CE, before, NONE, 0),
        4 => Record::new(LA, before, 0, 0),
        5 => Record::new(CA, 1, NONE, 0),
        6 | 7 => Record::new(VA, random.below(3) as u32, NONE, 0),
        8 => Record::new(HA, before, NONE, 0),
        _ => Record::new(EQ, before, (before + 1) % (number as u32), 0),
    }
}
