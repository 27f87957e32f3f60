//! No two type records are equal: a scan of the few seen, a hash table where there are many.

use crate::stack::Stack;
use crate::words::*;

const FEW: usize = 16;
const SLOTS: usize = 2 * MOST_RECORDS;

/// The first type records seen, and how many there were in all.
pub struct Types {
    few: Stack<u64, FEW>,
    count: usize,
}

/// A base type's key and an arrow's never agree: an arrow's b is below 4,096.
fn key(record: Record) -> u64 {
    let low = if record[0] == BT { NONE } else { record[2] };
    u64::from(record[1]) << 32 | u64::from(low)
}

impl Types {
    pub fn new() -> Types {
        Types { few: Stack::new(), count: 0 }
    }

    /// False if one of the first types seen is equal to this one.
    pub fn add(&mut self, record: Record) -> bool {
        let key = key(record);
        let new = !self.few.items().contains(&key);
        if self.count < FEW {
            self.few.push(key);
        }
        self.count += 1;
        new
    }

    /// The lowest type record equal to a lower one, where there are more than `add` compares.
    pub fn lowest_equal(&self, table: &[Record]) -> Option<usize> {
        if self.count > FEW { lowest_equal(table) } else { None }
    }
}

#[cold]
fn lowest_equal(table: &[Record]) -> Option<usize> {
    let mut slots = [0u16; SLOTS];
    for (number, &record) in table.iter().enumerate() {
        if record[0] > AR {
            continue;
        }
        let key = key(record);
        let mut slot = (key.wrapping_mul(0x9E37_79B9_7F4A_7C15) >> 51) as usize;
        while slots[slot] != 0 {
            if self::key(table[slots[slot] as usize - 1]) == key {
                return Some(number);
            }
            slot = (slot + 1) % SLOTS;
        }
        slots[slot] = number as u16 + 1;
    }
    None
}
