//! Answer 5: the rules of the records section, one pass from record 0 upward.

use crate::words::*;
use std::collections::HashSet;

/// What the elements of a list are.
#[derive(Clone, Copy, PartialEq, Eq)]
enum Kind {
    Types,
    Terms,
}

/// What the pass knows of the records below the present one.
struct Pass<'a> {
    table: &'a [u32],
    used: Vec<bool>,
    lists: Vec<Option<(Kind, usize)>>,
    types: HashSet<(u32, u32, u32)>,
}

/// The lowest of the first n records that breaks a rule of the records section.
pub fn lowest_broken(table: &[u32], n: usize) -> Option<usize> {
    let (used, lists) = (vec![false; n], vec![None; n]);
    let mut pass = Pass { table, used, lists, types: HashSet::new() };
    (0..n).find(|&number| pass.keeps_rules(number).is_none())
}

impl Pass<'_> {
    /// Some if the record keeps every rule, given that all lower records do.
    fn keeps_rules(&mut self, number: usize) -> Option<()> {
        let Record { tag, a, b, c } = get(self.table, number);
        if tag != EQ {
            zero(c)?;
        }
        match tag {
            BT => zero(b).and(self.new_type(tag, a, b)),
            AR => {
                self.type_below(number, a)?;
                self.type_below(number, b)?;
                self.new_type(tag, a, b)
            }
            KO => self.type_below(number, a).and(zero(b)),
            HO => {
                self.list_below(number, a, Kind::Types)?;
                self.tagged_below(number, b, &[BT])
            }
            CE => self.cell(number, a, b),
            LA => self.term_below(number, a).and(zero(b)),
            CA => self.tagged_below(number, a, &[KO]).and(self.arguments_below(number, b)),
            VA => (a < MOST_VARIABLES).then_some(()).and(self.arguments_below(number, b)),
            HA => self.tagged_below(number, a, &[HO]).and(self.arguments_below(number, b)),
            EQ => {
                self.term_below(number, a)?;
                self.term_below(number, b)?;
                self.type_below(number, c)
            }
            _ => None,
        }
    }

    fn arguments_below(&mut self, number: usize, to: u32) -> Option<()> {
        self.list_below(number, to, Kind::Terms).map(|_| ())
    }

    /// A list cell: its element, its rest of the same kind, at most 16 cells, rest used once.
    fn cell(&mut self, number: usize, element: u32, rest: u32) -> Option<()> {
        let kind = if self.type_below(number, element).is_some() {
            Kind::Types
        } else {
            self.term_below(number, element)?;
            Kind::Terms
        };
        let length = self.list_below(number, rest, kind)? + 1;
        if length > MOST_CELLS {
            return None;
        }
        *self.lists.get_mut(number)? = Some((kind, length));
        Some(())
    }

    fn tagged_below(&self, number: usize, to: u32, tags: &[u32]) -> Option<()> {
        let to = to as usize;
        (to < number && tags.contains(&get(self.table, to).tag)).then_some(())
    }

    fn type_below(&self, number: usize, to: u32) -> Option<()> {
        self.tagged_below(number, to, &[BT, AR])
    }

    fn term_below(&mut self, number: usize, to: u32) -> Option<()> {
        self.tagged_below(number, to, &[LA, CA, VA, HA])?;
        self.first_use(to)
    }

    /// A list or NONE of the asked kind; its length.
    fn list_below(&mut self, number: usize, to: u32, asked: Kind) -> Option<usize> {
        if to == NONE {
            return Some(0);
        }
        self.tagged_below(number, to, &[CE])?;
        let (kind, length) = (*self.lists.get(to as usize)?)?;
        if kind != asked {
            return None;
        }
        self.first_use(to)?;
        Some(length)
    }

    fn first_use(&mut self, to: u32) -> Option<()> {
        let used = self.used.get_mut(to as usize)?;
        (!std::mem::replace(used, true)).then_some(())
    }

    /// No lower type record is equal to this one.
    fn new_type(&mut self, tag: u32, a: u32, b: u32) -> Option<()> {
        self.types.insert((tag, a, b)).then_some(())
    }
}

fn zero(field: u32) -> Option<()> {
    (field == 0).then_some(())
}
