//! Tables to be written as files: of problems, after edits in memory, left by solving, near the limits.

use crate::generate::append::Editor;
use crate::generate::edit::{change_field, change_tag, use_twice};
use crate::generate::problem::{litter, table_of};
use crate::generate::{long, problem, typed, Scale};
use crate::machine::records::lowest_broken;
use crate::machine::solve::solve;
use crate::random::Random;
use crate::read::RECORD_BYTES;
use crate::words::*;

/// How a table came about.
#[derive(Clone, Copy, Debug, PartialEq, Eq)]
pub enum WriteKind {
    Problem,
    Appended,
    Field,
    Tag,
    Twice,
    Solved,
    Handed,
    Long,
}

impl WriteKind {
    pub const ALL: [WriteKind; 8] = [
        WriteKind::Problem,
        WriteKind::Appended,
        WriteKind::Field,
        WriteKind::Tag,
        WriteKind::Twice,
        WriteKind::Solved,
        WriteKind::Handed,
        WriteKind::Long,
    ];

    pub fn letter(self) -> char {
        match self {
            WriteKind::Problem => 'p',
            WriteKind::Appended => 'a',
            WriteKind::Field => 'f',
            WriteKind::Tag => 't',
            WriteKind::Twice => 'u',
            WriteKind::Solved => 's',
            WriteKind::Handed => 'h',
            WriteKind::Long => 'l',
        }
    }

    fn some(random: &mut Random, scale: Scale) -> WriteKind {
        match random.below(100) {
            0..=19 => WriteKind::Problem,
            20..=36 => WriteKind::Appended,
            37..=51 => WriteKind::Field,
            52..=61 => WriteKind::Tag,
            62..=73 => WriteKind::Twice,
            74..=77 if scale == Scale::Usual => WriteKind::Long,
            78..=86 => WriteKind::Handed,
            _ => WriteKind::Solved,
        }
    }
}

/// A table, n, and the file's bytes before writing.
#[derive(Clone, Debug)]
pub struct WriteProblem {
    pub kind: WriteKind,
    pub table: Vec<u32>,
    pub n: usize,
    pub file: Vec<u8>,
}

/// The write problem of a seed and an index.
pub fn write_problem(seed: u64, index: u64, scale: Scale) -> WriteProblem {
    let mut random = Random::of_pair(seed ^ 0x0F_14B1_7E50, index);
    let kind = WriteKind::some(&mut random, scale);
    of_kind(kind, &mut random, scale)
}

/// A table of this kind, n, and an output.
pub fn of_kind(kind: WriteKind, random: &mut Random, scale: Scale) -> WriteProblem {
    let (table, count) = match kind {
        WriteKind::Problem => {
            let given = problem(random.draw(), 0, scale);
            (given.table, given.n)
        }
        WriteKind::Solved => solved(random, scale),
        WriteKind::Long => long::long(random),
        _ => in_table(&edited(random, scale, kind), random),
    };
    let n = if kind == WriteKind::Long { count } else { some_n(random, &table, count) };
    let bytes = some_length(random, RECORD_BYTES * n.min(room(&table) + 2));
    let file = litter(random, bytes).into_iter().map(|word| word as u8).collect();
    WriteProblem { kind, table, n, file }
}

/// A typed problem's records, or those that solving used, after edits of one kind.
fn edited(random: &mut Random, scale: Scale, kind: WriteKind) -> Vec<Record> {
    if kind != WriteKind::Handed {
        return edited_so(typed(random, scale, 0).records, random, kind);
    }
    let (table, used) = solved(random, scale);
    let records = (0..used).map(|number| get(&table, number)).collect();
    let kinds =
        [WriteKind::Appended, WriteKind::Appended, WriteKind::Field, WriteKind::Tag, WriteKind::Twice];
    let kind = random.pick(&kinds).unwrap_or(WriteKind::Appended);
    edited_so(records, random, kind)
}

/// Up to twenty records appended, or one to three edits of another kind.
fn edited_so(mut records: Vec<Record>, random: &mut Random, kind: WriteKind) -> Vec<Record> {
    if kind == WriteKind::Appended {
        let mut editor = Editor::new(&records);
        (0..random.between(1, 20)).for_each(|_| editor.append(random, EQ));
        return editor.records;
    }
    for _ in 0..random.pick(&[1, 1, 1, 2, 3]).unwrap_or(1) {
        let number = random.below(records.len());
        match kind {
            WriteKind::Field => change_field(&mut records, random, number),
            WriteKind::Tag => change_tag(&mut records, random, number),
            _ => use_twice(&mut records, random),
        }
    }
    records
}

/// The records in a table with little or no room past them, litter there; and how many they are.
fn in_table(records: &[Record], random: &mut Random) -> (Vec<u32>, usize) {
    let spare = if random.chance(40) { 0 } else { random.below(20) };
    let words = 4 * (records.len() + spare) + random.below(4);
    (table_of(records, words, random), records.len())
}

/// What solving left with answer 0, and how many records it used.
fn solved(random: &mut Random, scale: Scale) -> (Vec<u32>, usize) {
    for _ in 0..12 {
        let mut p = problem(random.draw(), 0, scale);
        let reply = solve(&mut p.table, p.n, &mut p.solutions, &mut p.queue);
        if reply.answer == 0 && (reply.used as usize > p.n || random.chance(20)) {
            return (p.table, reply.used as usize);
        }
    }
    (Vec::new(), 0)
}

/// Mostly all the records, now and then a number at a limit, far past it, or just before or behind a broken record.
fn some_n(random: &mut Random, table: &[u32], count: usize) -> usize {
    let room = room(table);
    let known = count.min(room);
    let limits = [2047, 2048, 2049, 4096, 4097];
    let far = [u64::MAX, u64::MAX / 14 + 1, 1 << 32, (1 << 32) + known as u64, (1 << 62) + 1];
    match random.below(32) {
        0 => 0,
        1 => 1,
        2 => room,
        3 => room + 1,
        4 => random.pick(&limits).unwrap_or(0),
        5 => random.pick(&far).unwrap_or(0) as usize,
        6 => random.below(known + 1),
        7 => count.saturating_add(random.between(1, 3)),
        8 | 9 => lowest_broken(table, room).unwrap_or(known),
        10 => lowest_broken(table, room).map_or(known, |place| place + 1),
        _ => count,
    }
}

/// Mostly exactly the file's length, or just beside it.
fn some_length(random: &mut Random, exact: usize) -> usize {
    match random.below(16) {
        0 => 0,
        1 => random.below(exact + 1),
        2 | 3 => exact.saturating_sub(1),
        4 => exact.saturating_sub(random.between(1, RECORD_BYTES)),
        5 | 6 => exact + 1,
        7..=9 => exact + random.between(2, 60),
        _ => exact,
    }
}
