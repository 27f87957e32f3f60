//! Narrowing, the same hole twice, and occurrences of holes applied to bare variables.

use crate::machine::Machine;
use crate::stack::Stack;
use crate::words::*;

/// Up to 16 variable numbers or positions.
pub type Numbers = Stack<u32, MOST_ARGUMENTS>;

impl Machine<'_> {
    /// Step 4: the hole is narrowed to the positions where the arguments agree.
    pub fn same_hole(&mut self, l: Record, r: Record) -> Result<(), Stop> {
        let (mut lefts, mut rights) = (l[2], r[2]);
        let mut agreeing = Numbers::new();
        let mut count = 0;
        while lefts != NONE {
            let [_, left, more_lefts, _] = self.record(lefts);
            let [_, right, more_rights, _] = self.record(rights);
            if self.record(left)[1] == self.record(right)[1] {
                agreeing.push(count);
            }
            count += 1;
            (lefts, rights) = (more_lefts, more_rights);
        }
        if agreeing.items().len() < count as usize {
            self.narrow(l[1], agreeing.items())?;
        }
        Ok(())
    }

    /// Narrows the hole to the positions: 3k + 2 records; answers the new hole.
    pub fn narrow(&mut self, hole: u32, positions: &[u32]) -> Result<u32, Stop> {
        let [_, mut context, base, _] = self.record(hole);
        let mut types = Numbers::new();
        let mut position = 0;
        while types.items().len() < positions.len() {
            let [_, of_type, rest, _] = self.record(context);
            if positions[types.items().len()] == position {
                types.push(of_type);
            }
            context = rest;
            position += 1;
        }
        let list = self.write_cells(types.items())?;
        let new_hole = self.write([HO, list, base, 0])?;
        let solution = self.write_occurrence(new_hole, positions)?;
        self.solutions[hole as usize] = solution;
        Ok(new_hole)
    }

    /// A hole applied to bare variables: 2k + 1 records.
    pub fn write_occurrence(&mut self, hole: u32, variables: &[u32]) -> Result<u32, Stop> {
        let first = self.next as u32;
        for &variable in variables {
            self.write([VA, variable, NONE, 0])?;
        }
        let mut list = NONE;
        for number in (first..self.next as u32).rev() {
            list = self.write([CE, number, list, 0])?;
        }
        self.write([HA, hole, list, 0])
    }

    /// List cells from last to first; answers the first cell, or NONE.
    #[inline(always)]
    pub fn write_cells(&mut self, elements: &[u32]) -> Result<u32, Stop> {
        let mut list = NONE;
        for &element in elements.iter().rev() {
            list = self.write([CE, element, list, 0])?;
        }
        Ok(list)
    }
}
