//! The machine: pairs leave the queue until none waits or one of them stops the run.

use crate::words::*;

/// The lent words while the machine runs.
pub struct Machine<'a> {
    pub table: &'a mut [Record],
    pub next: usize,
    pub solutions: &'a mut [u32],
    queue: &'a mut [[u32; 2]],
    first: usize,
    waiting: usize,
}

impl<'a> Machine<'a> {
    pub fn new(
        table: &'a mut [Record],
        n: usize,
        solutions: &'a mut [u32],
        queue: &'a mut [[u32; 2]],
    ) -> Self {
        Machine { table, next: n, solutions, queue, first: 0, waiting: 0 }
    }

    /// All equations enter in record order; then each pair in its turn is treated.
    pub fn run(&mut self, equations: &[u16]) -> Result<(), Stop> {
        if equations.len() > self.queue.len() {
            return Err(Stop::QueueFull);
        }
        for &number in equations {
            let [_, left, right, _] = self.record(u32::from(number));
            self.join(left, right);
        }
        while self.waiting > 0 {
            let [left, right] = self.queue[self.first];
            self.first += 1;
            if self.first == self.queue.len() {
                self.first = 0;
            }
            self.waiting -= 1;
            self.treat(left, right)?;
        }
        Ok(())
    }

    #[inline(always)]
    pub fn record(&self, number: u32) -> Record {
        at(self.table, number)
    }

    /// Writes the next record; table full if it would have number R.
    #[inline(always)]
    pub fn write(&mut self, record: Record) -> Result<u32, Stop> {
        let slot = self.table.get_mut(self.next).ok_or(Stop::TableFull)?;
        *slot = record;
        self.next += 1;
        Ok(self.next as u32 - 1)
    }

    /// A pair joins the queue, which has room for it.
    #[inline(always)]
    fn join(&mut self, left: u32, right: u32) {
        let mut at = self.first + self.waiting;
        if at >= self.queue.len() {
            at -= self.queue.len();
        }
        self.queue[at] = [left, right];
        self.waiting += 1;
    }

    /// Steps 1 to 5 for one pair.
    fn treat(&mut self, mut left: u32, mut right: u32) -> Result<(), Stop> {
        loop {
            let l = self.expanded(&mut left)?;
            let r = self.expanded(&mut right)?;
            match (l[0], r[0]) {
                (LA, LA) => (left, right) = (l[1], r[1]),
                (CA, CA) | (VA, VA) if l[1] == r[1] => return self.join_arguments(l[2], r[2]),
                (HA, HA) if l[1] == r[1] => return self.same_hole(l, r),
                (HA, _) => return self.solve_by(l, right),
                (_, HA) => return self.solve_by(r, left),
                _ => return Err(Stop::Clash),
            }
        }
    }

    /// Step 1: while the side's head is a solved hole, a copy of the solution takes its place.
    #[inline(always)]
    fn expanded(&mut self, side: &mut u32) -> Result<Record, Stop> {
        loop {
            let record = self.record(*side);
            if record[0] != HA {
                return Ok(record);
            }
            let solution = self.solutions[record[1] as usize];
            if solution == NONE {
                return Ok(record);
            }
            *side = self.copy_for(solution, record[2])?;
        }
    }

    /// Step 3: the argument pairs join the queue in order, counted together.
    #[inline(always)]
    fn join_arguments(&mut self, mut lefts: u32, mut rights: u32) -> Result<(), Stop> {
        while lefts != NONE {
            if self.waiting == self.queue.len() {
                return Err(Stop::QueueFull);
            }
            let [_, left, more_lefts, _] = self.record(lefts);
            let [_, right, more_rights, _] = self.record(rights);
            self.join(left, right);
            (lefts, rights) = (more_lefts, more_rights);
        }
        Ok(())
    }
}
