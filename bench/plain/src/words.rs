//! Records as four words, replies, and the numbers of the document's tables.

pub const NONE: u32 = u32::MAX;
pub const MOST_RECORDS: usize = 4096;
pub const MOST_PAIRS: usize = 1024;
pub const MOST_ARGUMENTS: usize = 16;
pub const MOST_VARIABLES: u32 = 4096;

pub const BT: u32 = 1;
pub const AR: u32 = 2;
pub const KO: u32 = 3;
pub const HO: u32 = 4;
pub const CE: u32 = 5;
pub const LA: u32 = 6;
pub const CA: u32 = 7;
pub const VA: u32 = 8;
pub const HA: u32 = 9;
pub const EQ: u32 = 10;

/// Tag, a, b, c.
pub type Record = [u32; 4];

/// Answer, place and used.
#[derive(Clone, Copy, Debug, PartialEq, Eq)]
pub struct Reply {
    pub answer: u16,
    pub place: u16,
    pub used: u16,
}

impl Reply {
    pub fn done(used: usize) -> Reply {
        Reply { answer: 0, place: 0, used: used as u16 }
    }

    pub fn refused(answer: u16, place: usize) -> Reply {
        Reply { answer, place: place as u16, used: 0 }
    }

    /// Four 16-bit fields, lowest first: answer, place, used, 0.
    pub fn packed(self) -> u64 {
        u64::from(self.answer) | u64::from(self.place) << 16 | u64::from(self.used) << 32
    }
}

/// What ends a run before it is done, by answer number.
#[derive(Clone, Copy)]
pub enum Stop {
    Clash = 1,
    Escape = 2,
    Occurs = 3,
    QueueFull = 8,
    TableFull = 9,
    OutputFull = 11,
}

impl From<Stop> for Reply {
    fn from(stop: Stop) -> Reply {
        Reply::refused(stop as u16, 0)
    }
}

/// The records that a slice of words counts for.
pub fn counted(words: &mut [u32]) -> &mut [Record] {
    let records = words.as_chunks_mut().0;
    let room = records.len().min(MOST_RECORDS);
    &mut records[..room]
}

/// A record that the checks have shown to be there.
#[inline(always)]
pub fn at(table: &[Record], number: u32) -> Record {
    if cfg!(feature = "unchecked") {
        // SAFETY: references of a table that keeps the records rules, and of what the machine writes, go to records in it.
        unsafe { *table.get_unchecked(number as usize) }
    } else {
        table[number as usize]
    }
}
