//! Replies and the answer numbers that end a run.

/// Answer, place and used.
#[derive(Clone, Copy, Debug, PartialEq, Eq)]
pub struct Reply {
    pub answer: u32,
    pub place: u32,
    pub used: u32,
}

impl Reply {
    pub fn new(answer: u32, place: u32, used: u32) -> Reply {
        Reply { answer, place, used }
    }

    /// Answer 0 with the number of records used.
    pub fn done(used: usize) -> Reply {
        Reply::new(0, 0, used as u32)
    }

    /// An answer above 0 with its place.
    pub fn refused(answer: u32, place: usize) -> Reply {
        Reply::new(answer, place as u32, 0)
    }
}

/// What ends a run before it is done.
#[derive(Clone, Copy, Debug, PartialEq, Eq)]
pub enum Stop {
    Clash,
    Escape,
    Occurs,
    QueueFull,
    TableFull,
    OutputFull,
}

impl Stop {
    pub fn answer(self) -> u32 {
        match self {
            Stop::Clash => 1,
            Stop::Escape => 2,
            Stop::Occurs => 3,
            Stop::QueueFull => 8,
            Stop::TableFull => 9,
            Stop::OutputFull => 11,
        }
    }
}
