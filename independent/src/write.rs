//! Writing a problem file: the first n records of a table as records of 14 bytes.

use crate::machine::records::lowest_broken;
use crate::read::{encode, MOST_BYTES, RECORD_BYTES};
use crate::reply::Reply;
use crate::words::*;

/// The most records a file may have.
pub const MOST_WRITTEN: usize = MOST_BYTES / RECORD_BYTES;

/// Writes the table's first n records to the file; bytes past them stay.
pub fn write(table: &[u32], n: usize, file: &mut [u8]) -> Reply {
    if let Some(refusal) = refused(table, n, file.len()) {
        return refusal;
    }
    for (number, bytes) in (0..n).zip(file.chunks_exact_mut(RECORD_BYTES)) {
        let record = encode(get(table, number)).unwrap_or_default();
        bytes.iter_mut().zip(record).for_each(|(slot, byte)| *slot = byte);
    }
    Reply::done(n)
}

/// Refusals in order: 4 (n above R or above 2,048), 5, 14 (output shorter than the file).
fn refused(table: &[u32], n: usize, bytes: usize) -> Option<Reply> {
    if n > room(table) || n > MOST_WRITTEN {
        return Some(Reply::refused(4, 0));
    }
    if let Some(place) = lowest_broken(table, n) {
        return Some(Reply::refused(5, place));
    }
    (bytes < RECORD_BYTES * n).then_some(Reply::refused(14, 0))
}
