//! Answers 6 and 7 in one descent: typing with a stack of binder types, and the lowest offending occurrence.

use crate::records::Equations;
use crate::stack::Stack;
use crate::words::*;

struct Typing<'a> {
    table: &'a [Record],
    binders: Stack<u16, MOST_RECORDS>,
    /// The lowest hole occurrence met that is no pattern.
    offending: u32,
}

/// The refusal of a table that keeps the records rules, if it is refused.
pub fn refusal(table: &[Record], equations: &Equations) -> Option<Reply> {
    let mut typing = Typing { table, binders: Stack::new(), offending: NONE };
    for &number in equations.items() {
        let [_, left, right, at] = table[number as usize];
        if !typing.term(left, at) || !typing.term(right, at) {
            return Some(Reply::refused(6, number as usize));
        }
    }
    let offending = typing.offending;
    (offending != NONE).then(|| Reply::refused(7, offending as usize))
}

impl Typing<'_> {
    #[inline(always)]
    fn record(&self, number: u32) -> Record {
        at(self.table, number)
    }

    /// The type of a variable; NONE if it is not bound.
    #[inline(always)]
    fn variable(&self, number: u32) -> u32 {
        let binders = self.binders.items();
        let from_outside = binders.len().wrapping_sub(1 + number as usize);
        binders.get(from_outside).map_or(NONE, |&at| u32::from(at))
    }

    fn term(&mut self, term: u32, at: u32) -> bool {
        let around = self.binders.items().len();
        let checks = self.within(term, at);
        self.binders.cut(around);
        checks
    }

    /// Goes on with a lambda's body and with a head's last argument; leaves the binders met on the stack.
    #[inline(always)]
    fn within(&mut self, mut term: u32, mut at: u32) -> bool {
        loop {
            let [tag, head, list, _] = self.record(term);
            match tag {
                LA => {
                    let [tag, domain, result, _] = self.record(at);
                    if tag != AR {
                        return false;
                    }
                    self.binders.push(domain as u16);
                    (term, at) = (head, result);
                }
                CA | VA => {
                    let head = if tag == CA { self.record(head)[1] } else { self.variable(head) };
                    if list == NONE {
                        return head == at && self.record(at)[0] == BT;
                    }
                    match self.last(head, list, at) {
                        Some(last) => (term, at) = last,
                        None => return false,
                    }
                }
                _ => return self.hole(term, head, list, at),
            }
        }
    }

    /// The last argument and its type, if a head of this type applied to the list has the asked base type and the arguments
    /// before the last check.
    #[inline(always)]
    fn last(&mut self, mut head: u32, mut list: u32, at: u32) -> Option<(u32, u32)> {
        loop {
            let [_, argument, rest, _] = self.record(list);
            let Some(&[AR, domain, result, _]) = self.table.get(head as usize) else {
                return None;
            };
            if rest == NONE {
                return (result == at && self.record(at)[0] == BT).then_some((argument, domain));
            }
            if !self.term(argument, domain) {
                return None;
            }
            (head, list) = (result, rest);
        }
    }

    #[inline(always)]
    fn hole(&mut self, term: u32, hole: u32, mut list: u32, at: u32) -> bool {
        let [_, mut context, base, _] = self.record(hole);
        let mut seen = Stack::<u32, MOST_ARGUMENTS>::new();
        while list != NONE && context != NONE {
            let [_, argument, rest, _] = self.record(list);
            let [_, domain, more, _] = self.record(context);
            let [tag, variable, arguments, _] = self.record(argument);
            if tag == VA && arguments == NONE && self.variable(variable) == domain {
                if seen.items().contains(&variable) {
                    self.offending = self.offending.min(term);
                }
                seen.push(variable);
            } else {
                if !self.term(argument, domain) {
                    return false;
                }
                self.offending = self.offending.min(term);
            }
            (list, context) = (rest, more);
        }
        list == NONE && context == NONE && base == at
    }
}
