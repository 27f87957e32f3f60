//! Compares the linked library with the independent program on generated problems, files and tables.

mod calls;
mod extra;
mod lent;
mod sizes;
mod supervise;
mod tally;
mod writes;

use calls::Words;
use independent::generate::files::file_problem;
use independent::generate::problem::litter;
use independent::generate::{problem, Scale};
use independent::random::Random;
use independent::words::{get, HO};
use std::ops::Range;
use std::process::ExitCode;
use tally::Tally;
use writes::Given;

/// The stack that the deepest legal input may need.
const STACK: usize = 8 << 20;
/// Of so many problems one is of a family that scales, one of an extra kind, and one has all size classes tried.
const ONE_LARGE_OF: u64 = 500;
const ONE_EXTRA_OF: u64 = 100;
const ALL_CLASSES_OF: u64 = 16;

/// With a seed and a count: compares all. With a seed and two indices: compares these, in this process.
fn main() -> ExitCode {
    let numbers: Vec<Option<u64>> = std::env::args().skip(1).map(|word| word.parse().ok()).collect();
    let (seed, from, to) = match numbers[..] {
        [Some(seed), Some(count)] => return supervise::all(seed, count),
        [Some(seed), Some(from), Some(to)] => (seed, from, to),
        _ => {
            eprintln!("usage: compare SEED COUNT | compare SEED FROM TO");
            return ExitCode::from(2);
        }
    };
    let run = std::thread::Builder::new().stack_size(STACK).spawn(move || compare(seed, from..to));
    match run.map(|thread| thread.join()) {
        Ok(Ok(true)) => ExitCode::SUCCESS,
        _ => ExitCode::from(1),
    }
}

/// Compares a problem, a file, an edited and a damaged table for each index; true if there was no difference.
fn compare(seed: u64, indices: Range<u64>) -> bool {
    let mut tally = Tally::default();
    let count = indices.end.saturating_sub(indices.start);
    for index in indices {
        let mut random = Random::of_pair(seed ^ 0xC0_3A_4E, index);
        if index % ONE_LARGE_OF == ONE_LARGE_OF - 1 {
            large(seed, index, &mut random, &mut tally);
        } else if index % ONE_EXTRA_OF == 0 {
            extra(seed, index, &mut random, &mut tally);
        } else {
            generated(seed, index, &mut random, &mut tally);
        }
        files(seed, index, &mut random, &mut tally);
        writes::edited_and_damaged(seed, index, &mut random, &mut tally);
    }
    tally.print(count)
}

/// A problem of the independent program's generator, with the output and hole that come with it.
fn generated(seed: u64, index: u64, random: &mut Random, tally: &mut Tally) {
    let scale = if random.chance(60) { Scale::Small } else { Scale::Usual };
    let made = problem(seed, index, scale);
    let kind = format!("{:?}", made.kind).to_lowercase();
    let name = format!("seed {seed} index {index} {scale:?}");
    let words = Words { table: made.table, n: made.n, solutions: made.solutions, queue: made.queue };
    let found = calls::show(&words, made.hole, &made.output);
    tally.count(&format!("show {kind}"), found.answer, &name, found.difference);
    solve_write_and_show(&words, &kind, &name, index, random, tally);
}

/// A problem of a family that scales, of any size up to the most records.
fn large(seed: u64, index: u64, random: &mut Random, tally: &mut Tally) {
    let family = random.below(families::ALL.len());
    let family = &families::ALL[family];
    let nodes = match random.below(4) {
        0 => random.between(1, 60),
        1 => random.between(1, 400),
        _ => random.between(400, 2100),
    };
    let words = lend(&family.records(nodes), random);
    let name = format!("seed {seed} index {index}: {} of {nodes} nodes", family.name);
    solve_write_and_show(&words, "large", &name, index, random, tally);
}

/// A problem of a kind that the generator seldom makes.
fn extra(seed: u64, index: u64, random: &mut Random, tally: &mut Tally) {
    let words = lend(&extra::records(random), random);
    let name = format!("seed {seed} index {index}: extra");
    solve_write_and_show(&words, "extra", &name, index, random, tally);
}

/// Slices for these records: mostly with room enough, up to a little more than counts.
fn lend(records: &[[u32; 4]], random: &mut Random) -> Words {
    let room = (records.len() + random.below(2 * records.len() + 40)).min(4096 + random.below(2));
    let mut table: Vec<u32> = records.concat();
    let spare = (4 * room).saturating_sub(table.len()) + random.below(4);
    table.extend(litter(random, spare));
    let solutions = table.len() / 4 + random.below(3);
    let solutions = litter(random, solutions);
    let pairs = if random.chance(80) { 1020 + random.below(10) } else { random.below(1024) };
    let queue = 2 * pairs + random.below(2);
    let queue = litter(random, queue);
    Words { table, n: records.len(), solutions, queue }
}

/// Solve, write what that left, and show every hole: with one size class each, now and then with all.
fn solve_write_and_show(
    words: &Words,
    kind: &str,
    name: &str,
    index: u64,
    random: &mut Random,
    tally: &mut Tally,
) {
    let (found, tables) = calls::solve(words);
    tally.count(&format!("solve {kind}"), found.answer, name, found.difference);
    let (row, n) = if found.answer == 0 { ("solved", found.used) } else { ("unsolved", words.n) };
    Given { tables, n, name, index }.write_exact(&format!("write {row} {kind}"), random, tally);
    let mut holes: Vec<usize> = (0..words.n.min(4096)).filter(|&k| get(&words.table, k).tag == HO).collect();
    if kind == "large" {
        random.shuffle(&mut holes);
        holes.truncate(4);
    }
    for hole in holes {
        let ample = sizes::words(5, 40, random);
        let found = calls::show(words, hole, &ample);
        let used = if found.answer == 11 { 60 + random.below(200) } else { found.used };
        tally.count(&format!("show every {kind}"), found.answer, name, found.difference);
        if ![0, 11].contains(&found.answer) {
            continue;
        }
        let all = index.is_multiple_of(ALL_CLASSES_OF);
        let chosen = sizes::some_class(random);
        for (class, class_name) in sizes::CLASSES.iter().enumerate() {
            if all || class == chosen {
                let found = calls::show(words, hole, &sizes::words(class, used, random));
                tally.count(&format!("show into {class_name}"), found.answer, name, found.difference);
            }
        }
    }
}

/// A file into the table that comes with it and into a table of some size class, now and then of all.
fn files(seed: u64, index: u64, random: &mut Random, tally: &mut Tally) {
    let scale = if random.chance(70) { Scale::Small } else { Scale::Usual };
    let made = file_problem(seed, index, scale);
    let name = format!("file of seed {seed} index {index} {scale:?}");
    let (found, tables) = calls::read(&made.file, &made.table);
    tally.count("read", found.answer, &name, found.difference);
    if found.answer == 0 {
        writes::read(&made.file, &tables, &name, random, tally);
    }
    let all = index.is_multiple_of(ALL_CLASSES_OF);
    let chosen = sizes::some_class(random);
    for (class, class_name) in sizes::CLASSES.iter().enumerate() {
        if all || class == chosen {
            let table = sizes::words(class, made.file.len() / 14, random);
            let found = calls::read(&made.file, &table).0;
            tally.count(&format!("read into {class_name}"), found.answer, &name, found.difference);
        }
    }
}
