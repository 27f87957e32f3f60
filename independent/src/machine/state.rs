//! The state of a run: the table with its next free record, and the solutions.

use crate::reply::Stop;
use crate::words::*;

/// How often a run did what the self-check wants to see happen.
#[derive(Clone, Copy, Debug, Default, PartialEq, Eq)]
pub struct Tally {
    pub copies: u32,
    pub narrowings: u32,
    pub narrowings_in_walks: u32,
    pub walked_solutions: u32,
    pub solved_below_solved: u32,
    /// Solved holes walked with an argument that leads to a lambda of the walk.
    pub lambda_places: u32,
    /// Solved holes walked with an argument that has no place.
    pub partial_maps: u32,
}

/// The table and the solutions while the machine runs.
pub struct State<'a> {
    table: &'a mut [u32],
    solutions: &'a mut [u32],
    room: usize,
    input: usize,
    next: usize,
    pub tally: Tally,
}

impl<'a> State<'a> {
    /// Clears the records from n on and the solution words.
    pub fn start(table: &'a mut [u32], n: usize, solutions: &'a mut [u32]) -> State<'a> {
        let room = room(table);
        let tally = Tally::default();
        let mut state = State { table, solutions, room, input: n, next: n, tally };
        state.clear();
        state
    }

    /// Takes back everything written.
    pub fn clear(&mut self) {
        self.next = self.input;
        fill(self.table, 4 * self.input, 4 * self.room, 0);
        fill(self.solutions, 0, self.room, NONE);
    }

    /// How many records stand: the input and the new ones.
    pub fn used(&self) -> usize {
        self.next
    }

    pub fn record(&self, number: u32) -> Record {
        get(self.table, number as usize)
    }

    pub fn list(&self, first: u32) -> Vec<u32> {
        elements(self.table, first)
    }

    /// The variable numbers of a hole occurrence's arguments.
    pub fn variables(&self, first: u32) -> Vec<u32> {
        self.list(first).into_iter().map(|argument| self.record(argument).a).collect()
    }

    /// The solution's record, if the hole is solved.
    pub fn solution(&self, hole: u32) -> Option<u32> {
        let word = self.solutions.get(hole as usize).copied().unwrap_or(NONE);
        (word != NONE).then_some(word)
    }

    pub fn record_solution(&mut self, hole: u32, solution: u32) {
        if let Some(word) = self.solutions.get_mut(hole as usize) {
            *word = solution;
        }
    }

    /// Writes the next record; table full if it would have number R.
    pub fn write(&mut self, record: Record) -> Result<u32, Stop> {
        if self.next >= self.room {
            return Err(Stop::TableFull);
        }
        let number = self.next;
        put(self.table, number, record);
        self.next += 1;
        Ok(number as u32)
    }
}
