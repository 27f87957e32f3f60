//! What is measured: solving the problems of each family, and writing tables.

use crate::lent::{Lent, Written, MOST_PAIRS, MOST_RECORDS};
use families::build::Record;
use families::Family;

/// The most records of a large problem, and of a file.
const LARGE: usize = 2048;

/// Families that are measured in the most room too: those that fail, and solved ones that read and write alike.
const IN_MOST_ROOM: [&str; 6] = [
    "narrowing",
    "equal rigid trees",
    "clash at the last leaf",
    "one large solution",
    "escape at the last leaf",
    "occurs at the last leaf",
];

/// The family whose tables are written: its problems have records of every tag.
const WRITTEN: &str = "a hole at each leaf";

/// A family that is solved, or tables that are written.
pub enum Subject {
    Solving(&'static Family),
    Writing(&'static Family),
}

/// A problem of some size, which is lent the most room that counts or just enough.
pub struct Row {
    pub size: &'static str,
    pub records: Vec<Record>,
    most_room: bool,
}

impl Row {
    /// For solving.
    pub fn lent(&self) -> Lent {
        if self.most_room {
            return Lent::new(&self.records, MOST_RECORDS, MOST_PAIRS);
        }
        Lent::fitting(&self.records)
    }

    /// For writing.
    pub fn written(&self) -> Written {
        Written::fitting(&self.records)
    }
}

/// Each family solved, then writing.
pub fn all() -> Vec<Subject> {
    let solving = families::ALL.iter().map(Subject::Solving);
    let writing = families::ALL.iter().filter(|family| family.name == WRITTEN).map(Subject::Writing);
    solving.chain(writing).collect()
}

impl Subject {
    pub fn name(&self) -> &'static str {
        match self {
            Subject::Solving(family) => family.name,
            Subject::Writing(_) => "writing",
        }
    }

    /// Small, middle and large in just enough room; of some families small and middle in the most.
    pub fn rows(&self) -> Vec<Row> {
        let row = |size, records, most_room| Row { size, records, most_room };
        let (Subject::Solving(family) | Subject::Writing(family)) = self;
        let (small, middle) = (family.records(10), family.records(100));
        let mut rows = vec![
            row("small", small.clone(), false),
            row("middle", middle.clone(), false),
            row("large", family.largest(LARGE), false),
        ];
        if IN_MOST_ROOM.contains(&self.name()) {
            rows.push(row("small, R = 4,096", small, true));
            rows.push(row("middle, R = 4,096", middle, true));
        }
        rows
    }

    /// What the cost is counted by: term nodes for solving, records for writing.
    pub fn nodes(&self, row: &Row) -> usize {
        match self {
            Subject::Solving(_) => families::nodes(&row.records),
            Subject::Writing(_) => row.records.len(),
        }
    }
}
