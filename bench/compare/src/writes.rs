//! Tables to be written: edited, damaged, as solving left them, as reading left them; what was written is read back.

use crate::calls::{self, Tables};
use crate::sizes;
use crate::tally::Tally;
use crate::ALL_CLASSES_OF;
use independent::generate::writes::{of_kind, WriteKind};
use independent::generate::Scale;
use independent::random::Random;

/// No output is made for more records, whatever n is.
const MOST_ASKED: usize = 4098;
/// Of so many edited tables one is near 2,048 or 4,096 records.
const ONE_LONG_OF: usize = 100;
const EDITED: [WriteKind; 4] = [WriteKind::Appended, WriteKind::Appended, WriteKind::Handed, WriteKind::Problem];
const DAMAGED: [WriteKind; 3] = [WriteKind::Field, WriteKind::Tag, WriteKind::Twice];

/// A table to be written, and where it comes from.
pub struct Given<'a> {
    pub tables: Tables,
    pub n: usize,
    pub name: &'a str,
    pub index: u64,
}

/// An edited table and a damaged one, each into the output that comes with it and into those of size classes.
pub fn edited_and_damaged(seed: u64, index: u64, random: &mut Random, tally: &mut Tally) {
    let long = random.below(ONE_LONG_OF) == 0;
    let edited = if long { Some(WriteKind::Long) } else { random.pick(&EDITED) };
    for kind in [edited, random.pick(&DAMAGED)].into_iter().flatten() {
        let scale = if random.chance(70) { Scale::Small } else { Scale::Usual };
        let made = of_kind(kind, random, scale);
        let name = format!("table of seed {seed} index {index}: {kind:?} {scale:?}");
        let tables = Tables { ours: made.table.clone(), theirs: made.table };
        let given = Given { tables, n: made.n, name: &name, index };
        given.write(&format!("write {kind:?}").to_lowercase(), &made.file, random, tally);
        given.write_into_classes(random, tally);
    }
}

/// What reading left of a file, written over other bytes.
pub fn read(file: &[u8], tables: &Tables, name: &str, random: &mut Random, tally: &mut Tally) {
    let class = random.between(sizes::EXACT, sizes::FILE_CLASSES.len() - 1);
    let before = sizes::bytes(class, file.len() / 14, random);
    let found = calls::write_back(file, tables, &before);
    tally.count("write what was read", found.answer, name, found.difference);
}

impl Given<'_> {
    /// Into a file of exactly its length, and into those of size classes.
    pub fn write_exact(&self, row: &str, random: &mut Random, tally: &mut Tally) {
        let exact = sizes::bytes(sizes::EXACT, self.n.min(MOST_ASKED), random);
        self.write(row, &exact, random, tally);
        self.write_into_classes(random, tally);
    }

    /// Into a file of one size class, now and then of each.
    fn write_into_classes(&self, random: &mut Random, tally: &mut Tally) {
        let all = self.index.is_multiple_of(ALL_CLASSES_OF);
        let chosen = random.below(sizes::FILE_CLASSES.len());
        for (class, class_name) in sizes::FILE_CLASSES.iter().enumerate() {
            if all || class == chosen {
                let file = sizes::bytes(class, self.n.min(MOST_ASKED), random);
                self.write(&format!("write into {class_name}"), &file, random, tally);
            }
        }
    }

    /// Into this file; what is written is read back into a table of some size class, mostly of one that has room.
    fn write(&self, row: &str, file: &[u8], random: &mut Random, tally: &mut Tally) {
        let (found, left) = calls::write(&self.tables, self.n, file);
        let written = found.answer == 0 && found.difference.is_none();
        tally.count(row, found.answer, self.name, found.difference);
        if written {
            let class = if random.chance(80) { random.between(3, 5) } else { sizes::some_class(random) };
            let table = sizes::words(class, self.n, random);
            let found = calls::read_back(&left[..14 * self.n], &self.tables.ours[..4 * self.n], &table);
            tally.count("read what was written", found.answer, self.name, found.difference);
        }
    }
}
