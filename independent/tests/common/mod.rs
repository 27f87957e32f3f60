//! What the tests share: problems from text, solved and shown in chosen room.
#![allow(dead_code)]

use independent::text::assemble;
use independent::words::{put, Record, NONE};
use independent::{read, show, solve, Reply};

/// The file of an example in the examples folder.
pub fn example(name: &str) -> Vec<u8> {
    let path = format!("{}/../examples/{name}.txt", env!("CARGO_MANIFEST_DIR"));
    file(&std::fs::read_to_string(&path).expect(&path))
}

pub fn file(text: &str) -> Vec<u8> {
    assemble(text).expect("text form")
}

/// The records a, f, g of the examples.
pub const PRELUDE: &str = "BT 0\nAR 0 0\nAR 0 1\nKO 0\nKO 1\nKO 2\n";

/// The words of a problem, with room for R records and C pairs.
pub struct Lent {
    pub table: Vec<u32>,
    pub n: usize,
    pub solutions: Vec<u32>,
    pub queue: Vec<u32>,
}

impl Lent {
    pub fn new(file: &[u8], records: usize, pairs: usize) -> Lent {
        let mut table = vec![77; 4 * records];
        let reply = read(file, &mut table);
        assert_eq!(reply.answer, 0, "reading");
        let n = reply.used as usize;
        Lent { table, n, solutions: vec![88; records], queue: vec![99; 2 * pairs] }
    }

    pub fn of_text(text: &str, records: usize, pairs: usize) -> Lent {
        Lent::new(&file(text), records, pairs)
    }

    /// Room for so many new records.
    pub fn with_spare(text: &str, spare: usize) -> Lent {
        let file = file(text);
        Lent::new(&file, file.len() / 14 + spare, 64)
    }

    pub fn solve(&mut self) -> Reply {
        solve(&mut self.table, self.n, &mut self.solutions, &mut self.queue)
    }

    pub fn show(&mut self, hole: usize, output: &mut [u32]) -> Reply {
        show(&mut self.table, self.n, &mut self.solutions, &mut self.queue, hole, output)
    }

    pub fn record(&self, number: usize) -> [u32; 4] {
        let words = &self.table[4 * number..4 * number + 4];
        [words[0], words[1], words[2], words[3]]
    }
}

pub fn reply(answer: u32, place: u32, used: u32) -> Reply {
    Reply { answer, place, used }
}

/// A table of these records and nothing else.
pub fn table(records: &[[u32; 4]]) -> Vec<u32> {
    let mut words = vec![0; 4 * records.len()];
    for (number, &[tag, a, b, c]) in records.iter().enumerate() {
        put(&mut words, number, Record::new(tag, a, b, c));
    }
    words
}

/// NONE under a short name.
pub const NO: u32 = NONE;
