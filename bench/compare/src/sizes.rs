//! Size classes: outputs, tables and files around what a shown answer, a file and a table need.

use independent::generate::problem::litter;
use independent::random::Random;

pub const CLASSES: [&str; 7] = ["empty", "under 1", "1 too few", "exact", "exact, odd", "ample", "over 4,096"];

/// The words of a slice of this class where so many records are needed.
pub fn words(class: usize, records: usize, random: &mut Random) -> Vec<u32> {
    let needed = 4 * records;
    let count = match class {
        0 => 0,
        1 => random.between(1, 3),
        2 => needed.saturating_sub(random.between(1, 4)),
        3 => needed,
        4 => needed + random.between(1, 3),
        5 => needed + random.between(4, 90),
        _ => 4 * 4096 + random.between(1, 9),
    };
    litter(random, count)
}

/// A class at random, the last one rarely: its slices are large.
pub fn some_class(random: &mut Random) -> usize {
    if random.chance(1) { CLASSES.len() - 1 } else { random.below(CLASSES.len() - 1) }
}

pub const FILE_CLASSES: [&str; 7] =
    ["empty", "under 14", "1 byte short", "short", "exact", "1 byte more", "ample"];

/// The number of the class "exact"; those from it on have room.
pub const EXACT: usize = 4;

/// The bytes of a file of this class where so many records are to be written.
pub fn bytes(class: usize, records: usize, random: &mut Random) -> Vec<u8> {
    let needed = 14 * records;
    let count = match class {
        0 => 0,
        1 => random.between(1, 13),
        2 => needed.saturating_sub(1),
        3 => random.below(needed),
        EXACT => needed,
        5 => needed + 1,
        _ => needed + random.between(2, 90),
    };
    litter(random, count).into_iter().map(|word| word as u8).collect()
}
