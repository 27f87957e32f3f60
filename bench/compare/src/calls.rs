//! One call to each side on the same words; a difference is described in full.

use crate::lent::{Item, Lent};
use std::fmt::Write;

/// The words of one problem as they are lent.
#[derive(Clone)]
pub struct Words {
    pub table: Vec<u32>,
    pub n: usize,
    pub solutions: Vec<u32>,
    pub queue: Vec<u32>,
}

/// What one comparison gave: the answer, used, and the difference if there is one.
pub struct Outcome {
    pub answer: usize,
    pub used: usize,
    pub difference: Option<String>,
}

/// The tables that the two sides have: the library's, the independent program's.
pub struct Tables {
    pub ours: Vec<u32>,
    pub theirs: Vec<u32>,
}

/// A slice after both calls: its name, what it held before, what the library left, what the independent program left.
struct Part<'a, T>(&'a str, &'a [T], &'a Lent<T>, &'a [T]);

/// A slice of any items after both calls.
trait Compared {
    fn same(&self) -> bool;
    fn describe(&self, text: &mut String);
}

impl<T: Item> Compared for Part<'_, T> {
    fn same(&self) -> bool {
        self.2.is(self.3)
    }

    fn describe(&self, text: &mut String) {
        let Part(name, before, ours, theirs) = self;
        let _ = writeln!(text, "  {name} before: {before:?}");
        if !self.same() {
            let _ = writeln!(text, "  {name} library ({} guards on each side): {:?}", T::GUARD.len(), ours.all());
            let _ = writeln!(text, "  {name} independent: {theirs:?}");
        }
    }
}

fn outcome(
    call: &str,
    n: usize,
    ours: tanczotka::Reply,
    theirs: independent::Reply,
    parts: &[&dyn Compared],
) -> Outcome {
    let same_reply = (u32::from(ours.answer), u32::from(ours.place), u32::from(ours.used), ours.spare)
        == (theirs.answer, theirs.place, theirs.used, 0);
    let (answer, used) = (theirs.answer as usize, theirs.used as usize);
    if same_reply && parts.iter().all(|part| part.same()) {
        return Outcome { answer, used, difference: None };
    }
    let mut text = format!("{call}, n = {n}\n  library:     {ours:?}\n  independent: {theirs:?}\n");
    parts.iter().for_each(|part| part.describe(&mut text));
    Outcome { answer, used, difference: Some(text) }
}

impl Outcome {
    /// The same with this difference, if it holds and there was none.
    fn or(self, differs: bool, text: impl Fn() -> String) -> Outcome {
        let difference = self.difference.or_else(|| differs.then(text));
        Outcome { difference, ..self }
    }
}

pub fn solve(words: &Words) -> (Outcome, Tables) {
    let mut theirs = words.clone();
    let their_reply = independent::solve(&mut theirs.table, words.n, &mut theirs.solutions, &mut theirs.queue);
    let (mut table, mut solutions, mut queue) = lend(words);
    let our_reply = tanczotka::solve(table.part(), words.n, solutions.part(), queue.part());
    let parts: [&dyn Compared; 3] = [
        &Part("table", &words.table, &table, &theirs.table),
        &Part("solutions", &words.solutions, &solutions, &theirs.solutions),
        &Part("queue", &words.queue, &queue, &theirs.queue),
    ];
    let found = outcome("solve", words.n, our_reply, their_reply, &parts);
    (found, Tables { ours: table.part().to_vec(), theirs: theirs.table })
}

pub fn show(words: &Words, hole: usize, output: &[u32]) -> Outcome {
    let mut theirs = words.clone();
    let mut shown = output.to_vec();
    let their_reply =
        independent::show(&mut theirs.table, words.n, &mut theirs.solutions, &mut theirs.queue, hole, &mut shown);
    let (mut table, mut solutions, mut queue) = lend(words);
    let mut lent_output = Lent::new(output);
    let our_reply =
        tanczotka::show(table.part(), words.n, solutions.part(), queue.part(), hole, lent_output.part());
    let parts: [&dyn Compared; 4] = [
        &Part("table", &words.table, &table, &theirs.table),
        &Part("solutions", &words.solutions, &solutions, &theirs.solutions),
        &Part("queue", &words.queue, &queue, &theirs.queue),
        &Part("output", output, &lent_output, &shown),
    ];
    outcome(&format!("show of {hole}"), words.n, our_reply, their_reply, &parts)
}

pub fn read(file: &[u8], table: &[u32]) -> (Outcome, Tables) {
    let mut theirs = table.to_vec();
    let their_reply = independent::read(file, &mut theirs);
    let mut lent = Lent::new(table);
    let our_reply = tanczotka::read(file, lent.part());
    let found = outcome("read", 0, our_reply, their_reply, &[&Part("table", table, &lent, &theirs)]);
    let call = || format!("read of {} bytes {file:?}", file.len());
    let found = Outcome { difference: found.difference.map(|text| format!("{}\n{text}", call())), ..found };
    (found, Tables { ours: lent.part().to_vec(), theirs })
}

/// Each side writes its own table; answers the file that the library left, too.
pub fn write(tables: &Tables, n: usize, file: &[u8]) -> (Outcome, Vec<u8>) {
    let mut theirs = file.to_vec();
    let their_reply = independent::write(&tables.theirs, n, &mut theirs);
    let (mut table, mut lent) = (Lent::new(&tables.ours), Lent::new(file));
    let our_reply = tanczotka::write(table.part(), n, lent.part());
    let parts: [&dyn Compared; 2] =
        [&Part("table", &tables.ours, &table, &tables.theirs), &Part("file", file, &lent, &theirs)];
    let found = outcome("write", n, our_reply, their_reply, &parts);
    (found, lent.part().to_vec())
}

/// Reading what the library wrote of these records: these records again, and nothing else in the table changes.
pub fn read_back(written: &[u8], records: &[u32], table: &[u32]) -> Outcome {
    let (found, tables) = read(written, table);
    let (read, past) = (tables.ours.get(..records.len()), tables.ours.get(records.len()..));
    let other = found.answer == 0 && (read != Some(records) || past != table.get(records.len()..));
    found.or(other, || format!("written: {records:?}\n  and read into {table:?}: {:?}", tables.ours))
}

/// Writing what the library read of this file: the same bytes, and the others as they were.
pub fn write_back(file: &[u8], tables: &Tables, before: &[u8]) -> Outcome {
    let (found, written) = write(tables, file.len() / 14, before);
    let (bytes, past) = (written.get(..file.len()), written.get(file.len()..));
    let other = found.answer == 0 && (bytes != Some(file) || past != before.get(file.len()..));
    found.or(other, || format!("read: {file:?}\n  and written over {before:?}: {written:?}"))
}

fn lend(words: &Words) -> (Lent<u32>, Lent<u32>, Lent<u32>) {
    (Lent::new(&words.table), Lent::new(&words.solutions), Lent::new(&words.queue))
}
