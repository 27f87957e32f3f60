//! Tables that are written: every mark, files of all lengths, each refusal, and what solving left.

use super::room::{hole_of, litter, Room};
use super::WriteReplay;
use crate::machine::solve::solve;
use crate::read::RECORD_BYTES;
use crate::stored::notation::{written, Written};
use crate::words::*;
use crate::write::MOST_WRITTEN;

/// A problem of fourteen records that has every mark.
const WHOLE: &str = "f:i>i; U[i]:i; \\U(v0) = \\f(v0) : i>i";

/// Name and records; the last record is the one that breaks.
const BROKEN: [(&str, &str); 6] = [
    ("an unused field", "BT 0; KO 0 1"),
    ("equal types", "BT 16909060; BT 9; BT 16909060"),
    ("a variable number of 4,096", "VA 4095 NONE; VA 4096 NONE"),
    ("a second use", "VA 0 NONE; LA 0; BT 0; LA 0"),
    ("a mixed list", "BT 0; VA 0 NONE; CE 0 NONE; CE 1 2"),
    ("a reference to itself", "BT 0; AR 0 1"),
];

fn words_of(records: &[Record]) -> Vec<u32> {
    records.iter().flat_map(|r| [r.tag, r.a, r.b, r.c]).collect()
}

/// The words of so many bytes, filled with bytes that tell their place within seven, to the last word's end.
fn old(bytes: usize) -> Vec<u32> {
    let litter = litter(bytes.next_multiple_of(4), 161);
    litter.chunks(4).map(|four| four.iter().rev().fold(0, |word, byte| word << 8 | byte)).collect()
}

fn entry(name: impl Into<String>, table: Vec<u32>, n: usize, bytes: usize) -> WriteReplay {
    let name = format!("writes: {}", name.into());
    WriteReplay { name, n: n as u32, table, bytes, words: old(bytes) }
}

/// All the records of a problem, into a file just long enough.
fn all_of(name: &str, problem: &Written) -> WriteReplay {
    let n = problem.records.len();
    entry(name, words_of(&problem.records), n, RECORD_BYTES * n)
}

/// All fourteen records into files that are too short, just long enough and longer.
fn lengths() -> Vec<WriteReplay> {
    let words = words_of(&written(WHOLE).records);
    let sizes = [196, 195, 0, 197, 199, 225];
    sizes.map(|bytes| entry(format!("every mark, into {bytes} bytes"), words.clone(), 14, bytes)).to_vec()
}

/// n below and above the records of the table, far above them, and 0.
fn counts() -> Vec<WriteReplay> {
    let words = words_of(&written(WHOLE).records);
    let odd = [words.clone(), vec![1, 2, 3]].concat();
    let below = [(13, 182), (5, 73), (1, 14), (0, 5)];
    let above = [(15, 210), (1 << 30, 16), (NONE as usize, 16)];
    let of = |(n, bytes): (usize, usize)| entry(format!("n is {n} and R is 14"), odd.clone(), n, bytes);
    let mut list: Vec<WriteReplay> = below.into_iter().chain(above).map(of).collect();
    list.push(entry("14 records, a word of the last missing", words[..55].to_vec(), 14, 196));
    list.push(entry("no record of no words into no bytes", Vec::new(), 0, 0));
    list.push(entry("one record of no words into no bytes", Vec::new(), 1, 0));
    list
}

/// The last record breaks; then a table in which it does not count.
fn broken() -> Vec<WriteReplay> {
    let mut list: Vec<WriteReplay> = BROKEN.map(|(name, text)| all_of(name, &written(text))).to_vec();
    let words = words_of(&written("VA 0 NONE; LA 0; BT 0; LA 0").records);
    list.push(entry("a second use past the records", words, 3, 56));
    list
}

/// Tags without a mark: below, above, and one whose lowest byte is a tag.
fn tags() -> Vec<WriteReplay> {
    let entry_of = |tag: u32| entry(format!("tag {tag}"), vec![BT, 0, 0, 0, tag, 1, 0, 0], 2, 28);
    [0, 11, 257].map(entry_of).to_vec()
}

/// More than one cause for a refusal.
fn order() -> Vec<WriteReplay> {
    let words = words_of(&written("BT 0; LA 7; BT 0").records);
    vec![
        entry("two broken records, a byte too few", words.clone(), 3, 41),
        entry("n above the table, broken records, no bytes", words, 4, 0),
    ]
}

/// Each byte of a field has its place; the highest and the lowest numbers.
fn bytes() -> WriteReplay {
    let numbers = [0x0403_0201, 0xF1E2_D3C4, NONE, 0, 0x8000_0000];
    let records = numbers.map(|number| Record::new(BT, number, 0, 0));
    entry("fields of four different bytes", words_of(&records), 5, 70)
}

/// Tables that solving refuses, and what it left of one that it solved, also with one record more.
fn solving() -> Vec<WriteReplay> {
    let text = "f:i>i; U[i]:i; V[i,i]:i; \\\\U(v1) = \\\\f(V(v1,v0)) : i>i>i";
    let problem = written(text);
    let mut p = Room::of(12, 1, 0).lent("", &problem, hole_of(&problem, "U"));
    let used = solve(&mut p.table, p.n as usize, &mut p.solutions, &mut p.queue).used as usize;
    vec![
        all_of("ill-typed", &written("a:i; b:o; a = b : i; v7 = \\a : o")),
        all_of("no pattern", &written("a:i; f:i>i; U[i,i]:i; \\U(v0,v0) = \\U(f(a),v0) : i>i")),
        entry("solved, all records used", p.table.clone(), used, RECORD_BYTES * used + 1),
        entry("solved, one record past those used", p.table, used + 1, RECORD_BYTES * used + 14),
    ]
}

/// One record more than a file may have, all legal.
fn long_table() -> Vec<u32> {
    let equations = "\\U(v0) = \\f(g(a,v0)) : i>i;".repeat(160);
    let mut words = words_of(&written(&format!("a:i; f:i>i; g:i>i>i; U[i]:i; {equations}")).records);
    words.truncate(4 * (MOST_WRITTEN + 1));
    words
}

/// The most records, and one more: in bytes that are all 0, and broken with no bytes.
fn long() -> Vec<WriteReplay> {
    let table = long_table();
    let mut broken = table.clone();
    broken[0] = 99;
    let most = RECORD_BYTES * MOST_WRITTEN;
    let mut more = entry("2,049 records", table.clone(), MOST_WRITTEN + 1, most + RECORD_BYTES);
    more.words.fill(0);
    vec![
        entry("2,048 records of 2,049", table, MOST_WRITTEN, most + 3),
        more,
        entry("2,049 records, the first broken, no bytes", broken, MOST_WRITTEN + 1, 0),
    ]
}

pub fn all() -> Vec<WriteReplay> {
    [lengths(), counts(), broken(), tags(), order(), vec![bytes()], solving(), long()].concat()
}
