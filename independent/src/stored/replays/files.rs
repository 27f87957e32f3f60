//! Files: whole ones, of odd lengths, with unknown marks, into tables of all sizes.

use super::room::litter;
use super::FileReplay;
use crate::read::{encode, MOST_BYTES, RECORD_BYTES};
use crate::stored::notation::written;

/// Words for one record more than the small problem has.
const ENOUGH: usize = 60;

/// The bytes of a small problem of fourteen records.
fn whole() -> Vec<u8> {
    let records = written("f:i>i; U[i]:i; \\U(v0) = \\f(v0) : i>i").records;
    records.into_iter().filter_map(encode).flatten().collect()
}

fn entry(name: impl Into<String>, file: &[u8], words: usize) -> FileReplay {
    let name = format!("files: {}", name.into());
    FileReplay { name, file: file.to_vec(), table: litter(words, 31) }
}

/// A file whose record has another mark.
fn marked(record: usize, mark: [u8; 2]) -> Vec<u8> {
    let mut file = whole();
    let bytes = file.iter_mut().skip(RECORD_BYTES * record);
    bytes.zip(mark).for_each(|(byte, sign)| *byte = sign);
    file
}

fn lengths() -> Vec<FileReplay> {
    let file = whole();
    let mut list = Vec::new();
    for bytes in [0, 1, 2, 13, 14, 15, 27, 28, 29, 42, file.len() - 1, file.len()] {
        list.push(entry(format!("the first {bytes} bytes"), &file[..bytes], ENOUGH));
    }
    let longer: Vec<u8> = file.iter().copied().chain([0]).collect();
    list.push(entry("a byte more than whole records", &longer, ENOUGH));
    list
}

fn tables() -> Vec<FileReplay> {
    let file = whole();
    let need = 4 * file.len() / RECORD_BYTES;
    let sizes = [0, 1, 4, need - 4, need - 1, need, need + 1, need + 3, need + 4];
    let mut list: Vec<FileReplay> =
        sizes.map(|words| entry(format!("whole, into {words} words"), &file, words)).to_vec();
    list.push(entry("no bytes, into no words", &[], 0));
    list.push(entry("no bytes, into three words", &[], 3));
    list.push(entry("odd bytes, into no words", &file[..13], 0));
    list
}

fn marks() -> Vec<FileReplay> {
    let last = whole().len() / RECORD_BYTES - 1;
    let mut list = Vec::new();
    for (record, mark) in
        [(0, *b"XY"), (1, *b"bt"), (5, *b"TB"), (last, *b"EX"), (0, [0, 0]), (last, [255, 254])]
    {
        list.push(entry(format!("record {record} marked {mark:?}"), &marked(record, mark), ENOUGH));
    }
    let mut two = marked(last, *b"QE");
    two.iter_mut().skip(RECORD_BYTES * 3).take(1).for_each(|byte| *byte = b'B');
    list.push(entry("two unknown marks", &two, ENOUGH - 4));
    list.push(entry("an unknown mark and too small a table", &marked(0, *b"XY"), ENOUGH - 5));
    list.push(entry("an unknown mark and odd bytes", &marked(0, *b"XY")[..20], ENOUGH));
    list
}

/// Each mark once, with the fields in an order that tells them apart.
fn fields() -> Vec<FileReplay> {
    let marks = ["BT", "AR", "KO", "HO", "CE", "LA", "CA", "VA", "HA", "EQ"];
    let record = |mark: &str| [mark.as_bytes(), &[1, 2, 3, 4, 5, 6, 7, 8, 9, 10, 11, 12]].concat();
    let all: Vec<u8> = marks.iter().flat_map(|mark| record(mark)).collect();
    let large = [b"BT".to_vec(), vec![255; 12]].concat();
    vec![entry("every mark", &all, 43), entry("fields of NONE", &large, 5)]
}

/// The longest file and the shortest that is too long.
fn longest() -> Vec<FileReplay> {
    let too_long = vec![b'X'; MOST_BYTES + RECORD_BYTES];
    let longest = too_long.get(..MOST_BYTES).unwrap_or_default();
    vec![
        entry("longer than 28,672 bytes", &too_long, 4),
        entry("28,672 bytes into a smaller table", longest, 8),
    ]
}

pub fn all() -> Vec<FileReplay> {
    [lengths(), tables(), marks(), fields(), longest()].concat()
}
