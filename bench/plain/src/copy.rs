//! Step 1's copy: a solution with its context variables renamed, holes kept as they are.

use crate::machine::Machine;
use crate::narrow::Numbers;
use crate::words::*;

/// The arguments' variable numbers, by context position.
type Arguments = [u32; MOST_ARGUMENTS];

impl Machine<'_> {
    /// A copy of the solution with its context renamed to the variables of an argument list.
    pub fn copy_for(&mut self, solution: u32, mut list: u32) -> Result<u32, Stop> {
        let mut arguments = [0; MOST_ARGUMENTS];
        for slot in arguments.iter_mut() {
            if list == NONE {
                break;
            }
            let [_, argument, rest, _] = self.record(list);
            *slot = self.record(argument)[1];
            list = rest;
        }
        self.copy(solution, &arguments, 0)
    }

    fn copy(&mut self, term: u32, arguments: &Arguments, depth: u32) -> Result<u32, Stop> {
        let [tag, a, b, _] = self.record(term);
        if tag == LA {
            let body = self.copy(a, arguments, depth + 1)?;
            return self.write([LA, body, 0, 0]);
        }
        let head = match tag {
            VA if a >= depth => arguments[(a - depth) as usize] + depth,
            _ => a,
        };
        let list = if b == NONE { NONE } else { self.copy_list(b, arguments, depth)? };
        self.write([tag, head, list, 0])
    }

    #[inline(always)]
    fn copy_list(&mut self, mut cell: u32, arguments: &Arguments, depth: u32) -> Result<u32, Stop> {
        let mut elements = Numbers::new();
        while cell != NONE {
            let [_, term, rest, _] = self.record(cell);
            elements.push(self.copy(term, arguments, depth)?);
            cell = rest;
        }
        self.write_cells(elements.items())
    }
}
