//! What reading a file must do, and that the program prints what solve and show say.

use crate::generate::files::FileProblem;
use crate::program::program;
use crate::read::read;
use crate::reply::Reply;
use crate::selfcheck::limits::roomy;
use crate::words::*;

/// Faults of read and of the program on one file, and read's answer.
pub fn file_faults(given: &FileProblem) -> (u32, Vec<String>) {
    let mut table = given.table.clone();
    let reply = read(&given.file, &mut table);
    let (expected, words) = expected_reading(&given.file, &given.table);
    let mut faults = Vec::new();
    if reply != expected || table != words {
        faults.push(format!("read says {reply:?}, expected {expected:?}, or the table is wrong"));
    }
    let printed = String::from_utf8_lossy(&program(&given.file)).into_owned();
    faults.extend(print_fault(&given.file, &printed));
    (reply.answer, faults)
}

/// The reply and the table after it, byte by byte.
fn expected_reading(file: &[u8], before: &[u32]) -> (Reply, Vec<u32>) {
    let refused = |answer: u32, place: usize| (Reply::new(answer, place as u32, 0), before.to_vec());
    let n = file.len() / 14;
    if file.len() > 28_672 || n * 14 != file.len() {
        return refused(12, 0);
    }
    if before.len() / 4 < n {
        return refused(4, 0);
    }
    let mut after = before.to_vec();
    for number in 0..n {
        let byte = |k: usize| file.get(14 * number + k).copied().unwrap_or(0);
        let mark = String::from_utf8_lossy(&[byte(0), byte(1)]).into_owned();
        let Some(tag) = MARKS.iter().position(|&known| known == mark) else {
            return refused(13, number);
        };
        let field = |k: usize| (0..4).rev().fold(0, |sum, at| sum << 8 | u32::from(byte(2 + 4 * k + at)));
        let words = [tag as u32 + 1, field(0), field(1), field(2)];
        for (slot, word) in after.iter_mut().skip(4 * number).zip(words) {
            *slot = word;
        }
    }
    (Reply::new(0, 0, n as u32), after)
}

/// The first line is the reply in full room; one line more for each hole after answer 0.
fn print_fault(file: &[u8], printed: &str) -> Option<String> {
    let (reading, table) = expected_reading(file, &[0; 4 * MOST_RECORDS]);
    let n = reading.used as usize;
    let reply = if reading.answer == 0 { roomy(&table, n) } else { reading };
    let mut expected = vec![format!("{} {} {}", reply.answer, reply.place, reply.used)];
    let holes = (0..n).filter(|&number| reply.answer == 0 && get(&table, number).tag == HO);
    expected.extend(holes.map(|hole| format!("h{hole} = ")));
    let lines: Vec<&str> = printed.lines().collect();
    let fine = lines.len() == expected.len()
        && printed.ends_with('\n')
        && lines.first().copied() == expected.first().map(String::as_str)
        && lines.iter().zip(&expected).all(|(line, start)| line.starts_with(start.as_str()));
    (!fine).then(|| format!("the program prints {printed:?}"))
}
