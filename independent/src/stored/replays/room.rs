//! The slices lent to a replay: so much room, and in it words left over from something else.

use crate::stored::notation::Written;
use crate::stored::replays::Replay;

/// Records and pairs for which there is room; further words that do not make up a record or a pair.
#[derive(Clone, Copy, Debug, Default)]
pub struct Room {
    /// Records beyond the input.
    pub new: usize,
    pub pairs: usize,
    /// Records of the output.
    pub shown: usize,
    /// Words more than these make: of the table, the solutions, the queue, the output.
    pub odd: [usize; 4],
}

impl Room {
    pub fn of(new: usize, pairs: usize, shown: usize) -> Room {
        Room { new, pairs, shown, odd: [0; 4] }
    }

    /// The problem in this room, asked to show this hole.
    pub fn lent(self, name: impl Into<String>, problem: &Written, hole: u32) -> Replay {
        let records = problem.records.len() + self.new;
        let [table, solutions, queue, output] = self.odd;
        let mut words: Vec<u32> = problem.records.iter().flat_map(|r| [r.tag, r.a, r.b, r.c]).collect();
        let left_over = litter(4 * records + table, 31);
        words.extend(left_over.iter().skip(words.len()));
        Replay {
            name: name.into(),
            n: problem.records.len() as u32,
            hole,
            table: words,
            solutions: litter(records + solutions, 41),
            queue: litter(2 * self.pairs + queue, 51),
            output: litter(4 * self.shown + output, 61),
        }
    }
}

/// Words that tell their place within seven.
pub fn litter(count: usize, least: u32) -> Vec<u32> {
    (0..count as u32).map(|at| least + at % 7).collect()
}

/// The number of a hole by its name, or a number that is no hole.
pub fn hole_of(problem: &Written, name: &str) -> u32 {
    problem.number(name).unwrap_or(0)
}
