//! What writing a file promises: the bytes, there and back with reading, and what solving has to do with it.

use crate::generate::writes::WriteProblem;
use crate::machine::solve::solve;
use crate::read::read;
use crate::reply::Reply;
use crate::selfcheck::legal::lowest_illegal;
use crate::words::*;
use crate::write::write;

/// A function that writes: table, n, file.
pub type Writer = fn(&[u32], usize, &mut [u8]) -> Reply;

/// What the self-check of one table found.
#[derive(Debug, Default)]
pub struct WriteReport {
    pub answer: u32,
    pub faults: Vec<String>,
    /// What solving answers in room enough for solutions and pairs.
    pub solving: u32,
    /// The records used after solving, if the answer is 0.
    pub solved: Option<usize>,
}

/// Writes one table and checks every promise on it.
pub fn check_write(given: &WriteProblem) -> WriteReport {
    check_writer(write, given)
}

/// As `check_write`, for any writer.
pub fn check_writer(writer: Writer, given: &WriteProblem) -> WriteReport {
    let mut file = given.file.clone();
    let reply = writer(&given.table, given.n, &mut file);
    let mut report = WriteReport { answer: reply.answer, ..WriteReport::default() };
    let (expected, bytes) = expected_writing(&given.table, given.n, &given.file);
    if reply != expected || file != bytes {
        report.faults.push(format!("write says {reply:?}, expected {expected:?}, or the file is wrong"));
    }
    report.faults.extend(first_records_faults(writer, given, reply, &file));
    if reply.answer == 0 {
        let written = file.get(..14 * given.n).unwrap_or_default();
        report.faults.extend(read_back_faults(written, &given.table, given.n));
        report.faults.extend(written_back_faults(writer, written));
    }
    check_solving(writer, given, reply, &mut report);
    report
}

/// The reply and the file after it, byte by byte.
fn expected_writing(table: &[u32], n: usize, before: &[u8]) -> (Reply, Vec<u8>) {
    let refused = |answer: u32, place: usize| (Reply::new(answer, place as u32, 0), before.to_vec());
    if n > table.len() / 4 || n > 2048 {
        return refused(4, 0);
    }
    if let Some(place) = lowest_illegal(table, n) {
        return refused(5, place);
    }
    if before.len() / 14 < n {
        return refused(14, 0);
    }
    let mut after = Vec::new();
    for record in table.chunks(4).take(n) {
        let mark = record.first().and_then(|&tag| MARKS.get((tag as usize).checked_sub(1)?));
        after.extend(mark.copied().unwrap_or_default().bytes());
        for field in record.iter().skip(1) {
            after.extend([0, 8, 16, 24].map(|shift| (field >> shift) as u8));
        }
    }
    after.extend(before.iter().skip(14 * n));
    (Reply::new(0, 0, n as u32), after)
}

/// Where the table has n records, what stands past them changes neither reply nor file.
fn first_records_faults(writer: Writer, given: &WriteProblem, reply: Reply, file: &[u8]) -> Vec<String> {
    let Some(records) = given.n.checked_mul(4).and_then(|words| given.table.get(..words)) else {
        return Vec::new();
    };
    let mut faults = Vec::new();
    for past in [&[][..], &[BT, 0, 0, 0, BT, 0, 0, 0], &[NONE; 41]] {
        let mut after = given.file.clone();
        let said = writer(&[records, past].concat(), given.n, &mut after);
        if said != reply || after != file {
            faults.push(format!("with {past:?} past the records write says {said:?}, before {reply:?}"));
        }
    }
    faults
}

/// Reading what was written gives the same n records into any table with room, other words as they were.
fn read_back_faults(written: &[u8], table: &[u32], n: usize) -> Vec<String> {
    let records = table.get(..4 * n).unwrap_or_default();
    let mut faults = Vec::new();
    for words in [4 * n, 4 * n + 1, 4 * n + 9, table.len(), 4 * 4096 + 5] {
        let before: Vec<u32> = (0..words as u32).map(|word| word.wrapping_mul(0x9E37_79B9)).collect();
        let mut after = before.clone();
        let reply = read(written, &mut after);
        let same = after.starts_with(records) && after.get(4 * n..) == before.get(4 * n..);
        if reply != Reply::new(0, 0, n as u32) || !same {
            faults.push(format!("what was written is read otherwise into {words} words: {reply:?}"));
        }
    }
    faults
}

/// Writing what was read gives the same bytes wherever the writer accepts; else a record is bad.
pub fn written_back_faults(writer: Writer, file: &[u8]) -> Vec<String> {
    let mut table = vec![0; 4 * 4096];
    let reading = read(file, &mut table);
    if reading.answer != 0 {
        return Vec::new();
    }
    let n = reading.used as usize;
    let before: Vec<u8> = file.iter().map(|byte| !byte).chain([7; 5]).collect();
    let mut after = before.clone();
    let reply = writer(&table, n, &mut after);
    let fine = match lowest_illegal(&table, n) {
        None => reply == reading && after.starts_with(file) && after.ends_with(&[7; 5]),
        Some(place) => reply == Reply::new(5, place as u32, 0) && after == before,
    };
    if fine {
        return Vec::new();
    }
    vec![format!("what was read is written otherwise: {reply:?}")]
}

/// Both refuse the same records with 5; what solving leaves with answer 0 can be written.
fn check_solving(writer: Writer, given: &WriteProblem, reply: Reply, report: &mut WriteReport) {
    let mut table = given.table.clone();
    let (mut solutions, mut queue) = (vec![0; room(&table)], vec![0; 2 * MOST_PAIRS]);
    let solving = solve(&mut table, given.n, &mut solutions, &mut queue);
    report.solving = solving.answer;
    let past_4 = reply.answer != 4 && solving.answer != 4;
    if past_4 && (solving.answer == 5 || reply.answer == 5) && solving != reply {
        report.faults.push(format!("write says {reply:?}, solve {solving:?}"));
    }
    if solving.answer == 0 {
        let used = solving.used as usize;
        report.solved = Some(used);
        report.faults.extend(left_faults(writer, &table, used));
    }
}

/// The first `used` records after solving are written if they are at most 2,048.
fn left_faults(writer: Writer, table: &[u32], used: usize) -> Vec<String> {
    let mut file = vec![0; 14 * used];
    let reply = writer(table, used, &mut file);
    let expected = if used <= 2048 { Reply::new(0, 0, used as u32) } else { Reply::new(4, 0, 0) };
    if reply != expected {
        return vec![format!("what solving left is written as {reply:?}, expected {expected:?}")];
    }
    if reply.answer == 0 {
        return read_back_faults(&file, table, used);
    }
    Vec::new()
}
