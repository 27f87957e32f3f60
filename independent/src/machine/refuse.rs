//! The answers that come before the machine runs: 4, 5, 10, 6, 7, in this order.

use crate::machine::{pattern, records, typing};
use crate::reply::Reply;
use crate::words::*;

/// What is asked of the solver beside solving.
#[derive(Clone, Copy)]
pub enum Asked {
    Nothing,
    Hole(usize),
}

/// Answers 5, 6, 7 alone for n at most R (0 0 0 if none); answer 4 if n is above R.
pub fn check(table: &[u32], n: usize) -> Reply {
    if n > room(table) {
        return Reply::refused(4, 0);
    }
    refused_problem(table, n, Asked::Nothing).unwrap_or(Reply::new(0, 0, 0))
}

/// The refusal of a call, if it is refused before the machine runs.
pub fn refused(table: &[u32], n: usize, solutions: &[u32], asked: Asked) -> Option<Reply> {
    let room = room(table);
    if n > room || solutions.len() < room {
        return Some(Reply::refused(4, 0));
    }
    refused_problem(table, n, asked)
}

fn refused_problem(table: &[u32], n: usize, asked: Asked) -> Option<Reply> {
    if let Some(place) = records::lowest_broken(table, n) {
        return Some(Reply::refused(5, place));
    }
    if let Asked::Hole(hole) = asked {
        if hole >= n || get(table, hole).tag != HO {
            return Some(Reply::refused(10, 0));
        }
    }
    if let Some(place) = typing::lowest_ill_typed(table, n) {
        return Some(Reply::refused(6, place));
    }
    pattern::lowest_offending(table, n).map(|place| Reply::refused(7, place))
}
