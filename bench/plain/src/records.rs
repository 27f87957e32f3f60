//! Answer 5: the rules of the records section, one pass upward with a mark for each record passed.

use crate::stack::Stack;
use crate::types::Types;
use crate::words::*;

/// What a lower record is, as far as a reference to it asks.
mod mark {
    pub const BASE: u8 = 1;
    pub const ARROW: u8 = 2;
    pub const CONSTANT: u8 = 3;
    pub const HOLE: u8 = 4;
    pub const TERM: u8 = 5;
    pub const EQUATION: u8 = 6;
    /// A list's low four bits are its cells less one.
    pub const TYPES: u8 = 0x20;
    pub const TERMS: u8 = 0x30;
    /// Added where a reference was met; no reference asks for a mark with it.
    pub const USED: u8 = 0x80;
}

/// The record numbers of the equations, in order.
pub type Equations = Stack<u16, MOST_RECORDS>;

struct Pass {
    marks: Stack<u8, MOST_RECORDS>,
}

/// The lowest of these records that breaks a rule; hands over the number of each equation passed.
#[inline(always)]
pub fn lowest_broken(table: &[Record], mut equation: impl FnMut(u16)) -> Option<usize> {
    let mut pass = Pass { marks: Stack::new() };
    let mut types = Types::new();
    let mut broken = None;
    for (number, &record) in table.iter().enumerate() {
        let Some(mark) = pass.keeps_rules(record, &mut types) else {
            broken = Some(number);
            break;
        };
        if mark == mark::EQUATION {
            equation(number as u16);
        }
        pass.marks.push(mark);
    }
    types.lowest_equal(&table[..broken.unwrap_or(table.len())]).or(broken)
}

fn when(fits: bool) -> Option<()> {
    fits.then_some(())
}

impl Pass {
    /// The record's mark, if it keeps every rule, given that all lower records do.
    #[inline(always)]
    fn keeps_rules(&mut self, [tag, a, b, c]: Record, types: &mut Types) -> Option<u8> {
        when(c == 0 || tag == EQ)?;
        match tag {
            BT => when(b == 0 && types.add([tag, a, b, c])).map(|()| mark::BASE),
            AR => {
                when(self.is_type(a) && self.is_type(b) && types.add([tag, a, b, c]))?;
                Some(mark::ARROW)
            }
            KO => when(self.is_type(a) && b == 0).map(|()| mark::CONSTANT),
            HO => {
                self.list(a, mark::TYPES)?;
                when(self.mark(b) == mark::BASE).map(|()| mark::HOLE)
            }
            CE => self.cell(a, b),
            LA => self.term(a).and(when(b == 0)).map(|()| mark::TERM),
            CA => {
                when(self.mark(a) == mark::CONSTANT)?;
                self.list(b, mark::TERMS).map(|_| mark::TERM)
            }
            VA => {
                when(a < MOST_VARIABLES)?;
                self.list(b, mark::TERMS).map(|_| mark::TERM)
            }
            HA => {
                when(self.mark(a) == mark::HOLE)?;
                self.list(b, mark::TERMS).map(|_| mark::TERM)
            }
            EQ => {
                self.term(a)?;
                self.term(b)?;
                when(self.is_type(c)).map(|()| mark::EQUATION)
            }
            _ => None,
        }
    }

    /// The mark of a lower record; 0 if there is none.
    #[inline(always)]
    fn mark(&self, number: u32) -> u8 {
        self.marks.items().get(number as usize).copied().unwrap_or(0)
    }

    #[inline(always)]
    fn is_type(&self, number: u32) -> bool {
        matches!(self.mark(number), mark::BASE | mark::ARROW)
    }

    /// Uses a lower record whose mark fits; answers the mark.
    #[inline(always)]
    fn first_use(&mut self, number: u32, fits: impl Fn(u8) -> bool) -> Option<u8> {
        let mark = self.marks.items_mut().get_mut(number as usize)?;
        let found = *mark;
        when(fits(found))?;
        *mark |= mark::USED;
        Some(found)
    }

    /// A term that nothing refers to yet.
    #[inline(always)]
    fn term(&mut self, number: u32) -> Option<u8> {
        self.first_use(number, |mark| mark == mark::TERM)
    }

    /// How many cells a list of the asked kind has that nothing refers to yet.
    #[inline(always)]
    fn list(&mut self, first: u32, kind: u8) -> Option<u8> {
        if first == NONE {
            return Some(0);
        }
        let mark = self.first_use(first, |mark| mark & 0xF0 == kind)?;
        Some((mark & 0x0F) + 1)
    }

    /// A list cell: at most 16 cells of one kind.
    #[inline(always)]
    fn cell(&mut self, element: u32, rest: u32) -> Option<u8> {
        let kind = if self.is_type(element) {
            mark::TYPES
        } else {
            self.term(element)?;
            mark::TERMS
        };
        let cells = self.list(rest, kind)?;
        when(cells < 16).map(|()| kind | cells)
    }
}
