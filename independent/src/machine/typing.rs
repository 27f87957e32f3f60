//! Answer 6: both sides of every equation check at its type, with no variable bound.

use crate::words::*;

/// A context: the innermost binder, or none.
type Scope = Option<usize>;

/// One variable bound on the way down: its type and the scope around it.
struct Binder {
    of_type: u32,
    around: Scope,
}

/// A term still to be checked at a type in a scope.
struct Task {
    term: u32,
    at: u32,
    scope: Scope,
}

/// Typing of one equation; terms wait on an explicit stack, so depth costs no call stack.
struct Typing<'a> {
    table: &'a [u32],
    binders: Vec<Binder>,
    tasks: Vec<Task>,
}

/// The lowest equation with a side that does not check, in a table that keeps the records rules.
pub fn lowest_ill_typed(table: &[u32], n: usize) -> Option<usize> {
    (0..n).find(|&number| {
        let record = get(table, number);
        record.tag == EQ && !checks(table, record.a, record.c) | !checks(table, record.b, record.c)
    })
}

fn checks(table: &[u32], term: u32, at: u32) -> bool {
    let mut typing = Typing { table, binders: Vec::new(), tasks: Vec::new() };
    typing.tasks.push(Task { term, at, scope: None });
    while let Some(task) = typing.tasks.pop() {
        if typing.step(task).is_none() {
            return false;
        }
    }
    true
}

impl Typing<'_> {
    /// Looks at one term's head and lays its children on the stack; None if it does not check.
    fn step(&mut self, task: Task) -> Option<()> {
        let record = get(self.table, task.term as usize);
        match record.tag {
            LA => self.lambda(record, task),
            CA => {
                let of_type = get(self.table, record.a as usize).a;
                self.rigid(of_type, record.b, task)
            }
            VA => {
                let of_type = self.variable(record.a, task.scope)?;
                self.rigid(of_type, record.b, task)
            }
            HA => self.hole(record, task),
            _ => None,
        }
    }

    fn lambda(&mut self, record: Record, task: Task) -> Option<()> {
        let (domain, result) = self.arrow(task.at)?;
        self.binders.push(Binder { of_type: domain, around: task.scope });
        let scope = Some(self.binders.len() - 1);
        self.tasks.push(Task { term: record.a, at: result, scope });
        Some(())
    }

    /// A constant or variable of `head_type` applied to a list: the argument types are the
    /// domains on the way down to the final type, which must be the asked base type.
    fn rigid(&mut self, head_type: u32, list: u32, task: Task) -> Option<()> {
        let mut left_over = head_type;
        for term in elements(self.table, list) {
            let (domain, result) = self.arrow(left_over)?;
            self.tasks.push(Task { term, at: domain, scope: task.scope });
            left_over = result;
        }
        self.same_base(left_over, task.at)
    }

    fn hole(&mut self, record: Record, task: Task) -> Option<()> {
        let hole = get(self.table, record.a as usize);
        let context = elements(self.table, hole.a);
        let arguments = elements(self.table, record.b);
        self.same_base(hole.b, task.at)?;
        if context.len() != arguments.len() {
            return None;
        }
        for (term, at) in arguments.into_iter().zip(context) {
            if !self.is_bare_variable_of(term, at, task.scope) {
                self.tasks.push(Task { term, at, scope: task.scope });
            }
        }
        Some(())
    }

    fn is_bare_variable_of(&self, term: u32, at: u32, scope: Scope) -> bool {
        let record = get(self.table, term as usize);
        record.tag == VA && record.b == NONE && self.variable(record.a, scope) == Some(at)
    }

    fn same_base(&self, found: u32, asked: u32) -> Option<()> {
        (found == asked && get(self.table, found as usize).tag == BT).then_some(())
    }

    fn arrow(&self, of_type: u32) -> Option<(u32, u32)> {
        let record = get(self.table, of_type as usize);
        (record.tag == AR).then_some((record.a, record.b))
    }

    /// The type of a variable: variable 0 is the innermost binder.
    fn variable(&self, number: u32, scope: Scope) -> Option<u32> {
        let mut binder = self.binders.get(scope?)?;
        for _ in 0..number {
            binder = self.binders.get(binder.around?)?;
        }
        Some(binder.of_type)
    }
}
