//! Appending records in memory: each keeps the rules of the records section if those before it do.

use crate::random::Random;
use crate::words::*;
use std::collections::HashSet;

/// Records, and what a further record may refer to.
#[derive(Default)]
pub struct Editor {
    pub records: Vec<Record>,
    types: Vec<u32>,
    bases: Vec<u32>,
    constants: Vec<u32>,
    holes: Vec<u32>,
    /// Terms that nothing refers to yet.
    terms: Vec<u32>,
    /// Lists that nothing refers to yet, with their lengths.
    type_lists: Vec<(u32, usize)>,
    term_lists: Vec<(u32, usize)>,
    known_types: HashSet<(u32, u32, u32)>,
}

impl Editor {
    pub fn new(records: &[Record]) -> Editor {
        let mut editor = Editor::default();
        records.iter().for_each(|&record| editor.push(record));
        editor
    }

    /// Appends records until there are so many, none of them an equation.
    pub fn pad(&mut self, random: &mut Random, count: usize) {
        while self.records.len() < count {
            self.append(random, HA);
        }
    }

    /// Appends one record of a tag up to `most`, a variable where that tag has nothing to refer to.
    pub fn append(&mut self, random: &mut Random, most: u32) {
        let tag = random.between(BT as usize, most as usize) as u32;
        let variable = Record::new(VA, random.below(MOST_VARIABLES as usize) as u32, NONE, 0);
        let record = self.record(random, tag).unwrap_or(variable);
        self.push(record);
    }

    fn record(&self, random: &mut Random, tag: u32) -> Option<Record> {
        let (a, b, c) = match tag {
            BT => (random.word(), 0, 0),
            AR => (random.pick(&self.types)?, random.pick(&self.types)?, 0),
            KO => (random.pick(&self.types)?, 0, 0),
            HO => (some_list(random, &self.type_lists).0, random.pick(&self.bases)?, 0),
            CE => return self.cell(random),
            LA => (random.pick(&self.terms)?, 0, 0),
            CA => (random.pick(&self.constants)?, some_list(random, &self.term_lists).0, 0),
            VA => (random.below(20) as u32, some_list(random, &self.term_lists).0, 0),
            HA => (random.pick(&self.holes)?, some_list(random, &self.term_lists).0, 0),
            _ => return self.equation(random),
        };
        (!self.known_types.contains(&(tag, a, b))).then_some(Record::new(tag, a, b, c))
    }

    /// A cell of a type or of a term, before a list that has room for one more.
    fn cell(&self, random: &mut Random) -> Option<Record> {
        let (elements, lists) = match random.chance(50) {
            true => (&self.types, &self.type_lists),
            false => (&self.terms, &self.term_lists),
        };
        let (rest, length) = some_list(random, lists);
        (length < MOST_CELLS).then_some(Record::new(CE, random.pick(elements)?, rest, 0))
    }

    /// An equation of two different terms, at any type.
    fn equation(&self, random: &mut Random) -> Option<Record> {
        let (left, right) = (random.pick(&self.terms)?, random.pick(&self.terms)?);
        (left != right).then_some(Record::new(EQ, left, right, random.pick(&self.types)?))
    }

    /// Appends this record, whatever it is.
    pub fn push(&mut self, record: Record) {
        let number = self.records.len() as u32;
        let Record { tag, a, b, .. } = record;
        match tag {
            BT | AR => {
                self.types.push(number);
                self.known_types.insert((tag, a, b));
                self.bases.extend((tag == BT).then_some(number));
            }
            KO => self.constants.push(number),
            HO => {
                take_list(&mut self.type_lists, a);
                self.holes.push(number);
            }
            CE => self.push_cell(number, a, b),
            LA..=HA => {
                self.take_term(if tag == LA { a } else { NONE });
                take_list(&mut self.term_lists, if tag == LA { NONE } else { b });
                self.terms.push(number);
            }
            _ => [a, b].into_iter().for_each(|side| self.take_term(side)),
        }
        self.records.push(record);
    }

    fn push_cell(&mut self, number: u32, element: u32, rest: u32) {
        let of_types = self.types.contains(&element);
        self.take_term(element);
        let lists = if of_types { &mut self.type_lists } else { &mut self.term_lists };
        let length = take_list(lists, rest) + 1;
        lists.push((number, length));
    }

    fn take_term(&mut self, taken: u32) {
        self.terms.retain(|&term| term != taken);
    }
}

/// NONE with length 0, or one of the lists.
fn some_list(random: &mut Random, lists: &[(u32, usize)]) -> (u32, usize) {
    let list = if random.chance(30) { None } else { random.pick(lists) };
    list.unwrap_or((NONE, 0))
}

/// Takes a list away from those that nothing refers to; its length.
fn take_list(lists: &mut Vec<(u32, usize)>, taken: u32) -> usize {
    let length = lists.iter().find(|(list, _)| *list == taken).map_or(0, |&(_, length)| length);
    lists.retain(|&(list, _)| list != taken);
    length
}
