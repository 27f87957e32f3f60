//! Reading a problem file: records of 14 bytes, a mark and three little-endian fields.

use crate::words::*;

pub const RECORD_BYTES: usize = 14;
const MOST_BYTES: usize = 28_672;

/// Reads the file's records into the table.
pub fn read(file: &[u8], table: &mut [u32]) -> Reply {
    let (records, rest) = file.as_chunks::<RECORD_BYTES>();
    if file.len() > MOST_BYTES || !rest.is_empty() {
        return Reply::refused(12, 0);
    }
    let table = counted(table);
    if records.len() > table.len() {
        return Reply::refused(4, 0);
    }
    if let Some(place) = records.iter().position(|bytes| tag(bytes) == 0) {
        return Reply::refused(13, place);
    }
    for (record, bytes) in table.iter_mut().zip(records) {
        let field = |at: usize| u32::from_le_bytes([bytes[at], bytes[at + 1], bytes[at + 2], bytes[at + 3]]);
        *record = [tag(bytes), field(2), field(6), field(10)];
    }
    Reply::done(records.len())
}

/// The tag of a mark; 0 if it is unknown.
fn tag(bytes: &[u8; RECORD_BYTES]) -> u32 {
    match &bytes[..2] {
        b"BT" => BT,
        b"AR" => AR,
        b"KO" => KO,
        b"HO" => HO,
        b"CE" => CE,
        b"LA" => LA,
        b"CA" => CA,
        b"VA" => VA,
        b"HA" => HA,
        b"EQ" => EQ,
        _ => 0,
    }
}
