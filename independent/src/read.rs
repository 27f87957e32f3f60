//! Reading a problem file: records of 14 bytes, a mark and three little-endian fields.

use crate::reply::Reply;
use crate::words::*;

/// The bytes of one record of a file.
pub const RECORD_BYTES: usize = 14;
/// The most bytes a file may have.
pub const MOST_BYTES: usize = 28_672;

/// Reads the file's records into the table.
pub fn read(file: &[u8], table: &mut [u32]) -> Reply {
    if file.len() > MOST_BYTES || !file.len().is_multiple_of(RECORD_BYTES) {
        return Reply::refused(12, 0);
    }
    let n = file.len() / RECORD_BYTES;
    if n > room(table) {
        return Reply::refused(4, 0);
    }
    let mut records = Vec::new();
    for bytes in file.chunks(RECORD_BYTES) {
        match decode(bytes) {
            Some(record) => records.push(record),
            None => return Reply::refused(13, records.len()),
        }
    }
    for (number, record) in records.into_iter().enumerate() {
        put(table, number, record);
    }
    Reply::done(n)
}

/// One record from its bytes; None if the mark is unknown or bytes are missing.
pub fn decode(bytes: &[u8]) -> Option<Record> {
    let mark = bytes.get(..2)?;
    let tag = MARKS.iter().position(|known| known.as_bytes() == mark)? as u32 + 1;
    let field = |from: usize| -> Option<u32> {
        let four: [u8; 4] = bytes.get(from..from + 4)?.try_into().ok()?;
        Some(u32::from_le_bytes(four))
    };
    Some(Record::new(tag, field(2)?, field(6)?, field(10)?))
}

/// The bytes of one record; None if its tag has no mark.
pub fn encode(record: Record) -> Option<Vec<u8>> {
    let mark = MARKS.get((record.tag as usize).checked_sub(1)?)?;
    let mut bytes = mark.as_bytes().to_vec();
    for field in [record.a, record.b, record.c] {
        bytes.extend(field.to_le_bytes());
    }
    Some(bytes)
}
