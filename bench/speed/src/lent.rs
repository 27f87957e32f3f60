//! What is lent for one problem: to solve it, to write it.

use crate::measure::{Measured, Said};
use families::build::Record;

/// R and C are never higher.
pub const MOST_RECORDS: usize = 4096;
pub const MOST_PAIRS: usize = 1024;
const RECORD_BYTES: usize = 14;

/// Table, solutions and queue.
#[derive(Clone, PartialEq, Eq)]
pub struct Lent {
    pub table: Vec<u32>,
    pub n: usize,
    pub solutions: Vec<u32>,
    pub queue: Vec<u32>,
}

impl Lent {
    pub fn new(records: &[Record], room: usize, pairs: usize) -> Lent {
        let mut table = records.concat();
        table.resize(4 * room, 0);
        Lent { table, n: records.len(), solutions: vec![0; room], queue: vec![0; 2 * pairs] }
    }

    /// The least room, and the least power of two of pairs, with which a problem has the answer it has with the most.
    pub fn fitting(records: &[Record]) -> Lent {
        let (n, most) = (records.len(), MOST_RECORDS);
        let reply = Lent::new(records, most, MOST_PAIRS).plain();
        let fits = |room: usize, pairs: usize| Lent::new(records, room, pairs).plain() == reply;
        let pairs = (0..10).map(|power| 1 << power).find(|&pairs| fits(most, pairs)).unwrap_or(MOST_PAIRS);
        let (mut short, mut enough) = (n.saturating_sub(1), most);
        while enough - short > 1 {
            let middle = (short + enough) / 2;
            if fits(middle, MOST_PAIRS) {
                enough = middle;
            } else {
                short = middle;
            }
        }
        Lent::new(records, enough, pairs)
    }
}

impl Measured for Lent {
    fn library(&mut self) -> Said {
        let reply = tanczotka::solve(&mut self.table, self.n, &mut self.solutions, &mut self.queue);
        (reply.answer, reply.place, reply.used)
    }

    fn plain(&mut self) -> Said {
        let reply = plain::solve(&mut self.table, self.n, &mut self.solutions, &mut self.queue);
        (reply.answer, reply.place, reply.used)
    }

    fn machine_only(&mut self) -> Said {
        let reply = plain::machine_only(&mut self.table, self.n, &mut self.solutions, &mut self.queue);
        (reply.answer, reply.place, reply.used)
    }
}

/// A table and the file that it is written to.
#[derive(Clone, PartialEq, Eq)]
pub struct Written {
    table: Vec<u32>,
    n: usize,
    file: Vec<u8>,
}

impl Written {
    /// A table of these records alone, and a file of exactly its length.
    pub fn fitting(records: &[Record]) -> Written {
        Written { table: records.concat(), n: records.len(), file: vec![0; RECORD_BYTES * records.len()] }
    }
}

impl Measured for Written {
    fn library(&mut self) -> Said {
        let reply = tanczotka::write(&self.table, self.n, &mut self.file);
        (reply.answer, reply.place, reply.used)
    }

    fn plain(&mut self) -> Said {
        let reply = plain::write(&self.table, self.n, &mut self.file);
        (reply.answer, reply.place, reply.used)
    }

    fn machine_only(&mut self) -> Said {
        let reply = plain::write_only(&self.table, self.n, &mut self.file);
        (reply.answer, reply.place, reply.used)
    }
}
