//! Replies: answer, place and used, as the library packs them into one number.

use std::fmt;

/// Answer, place and used; `spare` is 0.
#[derive(Clone, Copy, Debug, PartialEq, Eq)]
pub struct Reply {
    pub answer: u16,
    pub place: u16,
    pub used: u16,
    pub spare: u16,
}

impl Reply {
    /// Takes four 16-bit fields apart, lowest first.
    pub fn of_packed(packed: u64) -> Reply {
        Reply {
            answer: packed as u16,
            place: (packed >> 16) as u16,
            used: (packed >> 32) as u16,
            spare: (packed >> 48) as u16,
        }
    }

    /// The answer in words.
    pub fn words(self) -> &'static str {
        const WORDS: [&str; 15] = [
            "solved",
            "clash: different rigid heads meet",
            "escape: a variable has no place in the solved hole's context",
            "occurs: the hole lies inside its own solution",
            "too little room in the lent slices",
            "a record breaks a rule",
            "ill-typed",
            "not a pattern",
            "queue full",
            "table full",
            "no input hole",
            "output full",
            "a file of no allowed length",
            "unknown mark",
            "file full",
        ];
        WORDS.get(usize::from(self.answer)).unwrap_or(&"unknown answer")
    }
}

/// Answer, place and used, as the program prints them.
impl fmt::Display for Reply {
    fn fmt(&self, f: &mut fmt::Formatter<'_>) -> fmt::Result {
        write!(f, "{} {} {}", self.answer, self.place, self.used)
    }
}
