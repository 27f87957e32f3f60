//! The queue of waiting pairs: first in, first out, at most C waiting.

use crate::reply::Stop;
use std::collections::VecDeque;

/// Two terms that must become equal.
pub type Pair = (u32, u32);

/// The pairs that wait.
pub struct Queue {
    waiting: VecDeque<Pair>,
    most: usize,
}

impl Queue {
    pub fn new(most: usize) -> Queue {
        Queue { waiting: VecDeque::new(), most }
    }

    /// All the new pairs join in order, or the queue is full.
    pub fn join(&mut self, pairs: Vec<Pair>) -> Result<(), Stop> {
        if self.waiting.len() + pairs.len() > self.most {
            return Err(Stop::QueueFull);
        }
        self.waiting.extend(pairs);
        Ok(())
    }

    pub fn leave(&mut self) -> Option<Pair> {
        self.waiting.pop_front()
    }
}
