//! Writing a problem file: the first n records as 14 bytes each, a mark and three little-endian fields.

use crate::read::RECORD_BYTES;
use crate::records::lowest_broken;
use crate::words::*;

const MOST_WRITTEN: usize = 2048;

/// The mark of each tag from 1 to 10, and others that no legal record asks for, so that four bits are always in range.
const MARKS: [[u8; 2]; 16] = {
    let mut marks = [*b"  "; 16];
    let known = [b"BT", b"AR", b"KO", b"HO", b"CE", b"LA", b"CA", b"VA", b"HA", b"EQ"];
    let mut tag = BT as usize;
    while tag <= EQ as usize {
        marks[tag] = *known[tag - 1];
        tag += 1;
    }
    marks
};

/// Writes the table's first n records to the file.
pub fn write(table: &[u32], n: usize, file: &mut [u8]) -> Reply {
    let Some(records) = first(table, n) else {
        return Reply::refused(4, 0);
    };
    if let Some(place) = lowest_broken(records, |_| ()) {
        return Reply::refused(5, place);
    }
    put(records, file)
}

/// As `write`, without answer 5: only for tables that it does not refuse.
pub fn write_only(table: &[u32], n: usize, file: &mut [u8]) -> Reply {
    match first(table, n) {
        Some(records) => put(records, file),
        None => Reply::refused(4, 0),
    }
}

/// The first n records, if the table and a file may have so many.
fn first(table: &[u32], n: usize) -> Option<&[Record]> {
    if n > MOST_WRITTEN { None } else { table.as_chunks().0.get(..n) }
}

/// The records' bytes, or answer 14.
fn put(records: &[Record], file: &mut [u8]) -> Reply {
    let Some(file) = file.as_chunks_mut::<RECORD_BYTES>().0.get_mut(..records.len()) else {
        return Reply::refused(14, 0);
    };
    for (bytes, &[tag, a, b, c]) in file.iter_mut().zip(records) {
        bytes[..2].copy_from_slice(&MARKS[tag as usize & 15]);
        bytes[2..6].copy_from_slice(&a.to_le_bytes());
        bytes[6..10].copy_from_slice(&b.to_le_bytes());
        bytes[10..].copy_from_slice(&c.to_le_bytes());
    }
    Reply::done(records.len())
}
