//! How many records count: n below, at and above those of the slice, and slices of odd lengths.

use super::Check;
use crate::stored::notation::written;
use crate::words::NONE;

/// A whole problem of seven records, then a broken one: a second use of record 3.
const EIGHT: &str = "BT 0; KO 0; HO NONE 0; CA 1 NONE; HA 2 NONE; EQ 4 3 0; BT 1; LA 3";
/// Ten records: the last is an equation with an occurrence, record 7, that is no pattern.
const TEN: &str =
    "BT 0; KO 0; CE 0 NONE; HO 2 0; VA 0 NONE; CA 1 NONE; CE 5 NONE; HA 3 6; CA 1 NONE; EQ 7 8 0";

/// The first words of a text, and n.
fn entry(name: &str, text: &str, words: usize, n: u32, answer: u32, place: u32) -> Check {
    let mut entry = Check::new(format!("sizes: {name}"), &written(text).records, answer, place);
    entry.words.resize(words, 7);
    entry.n = n;
    entry
}

fn around_the_slice() -> Vec<Check> {
    let mut list = Vec::new();
    for n in 0..=7 {
        list.push(entry(&format!("{n} records of eight"), EIGHT, 32, n, 0, 0));
    }
    list.push(entry("all eight records, the last broken", EIGHT, 32, 8, 5, 7));
    for n in [9, 10, 4096, 4097, 65_536, 1 << 30, (1 << 30) + 7, 1 << 31, NONE] {
        list.push(entry(&format!("n is {n} and R is 8"), EIGHT, 32, n, 4, 0));
    }
    for words in 28..32 {
        list.push(entry(&format!("seven records in {words} words"), EIGHT, words, 7, 0, 0));
        list.push(entry(&format!("eight records asked of {words} words"), EIGHT, words, 8, 4, 0));
    }
    for words in 33..37 {
        list.push(entry(&format!("seven records in {words} words"), EIGHT, words, 7, 0, 0));
    }
    list.push(entry("a ninth record of words left over", EIGHT, 36, 9, 5, 7));
    list.push(entry("seven records of nine, words left over", EIGHT, 36, 7, 0, 0));
    list
}

fn empty() -> Vec<Check> {
    let mut list = Vec::new();
    for words in 0..6 {
        list.push(entry(&format!("no record of {words} words"), "BT 0", words, 0, 0, 0));
    }
    for words in 0..4 {
        list.push(entry(&format!("one record of {words} words"), "BT 0", words, 1, 4, 0));
    }
    list.push(entry("n is NONE and no words", "", 0, NONE, 4, 0));
    list.push(entry("n is 2^30 and no words", "", 0, 1 << 30, 4, 0));
    list.push(entry("one record of four words", "BT 0", 4, 1, 0, 0));
    list.push(entry("a record of nothing but 7", "", 4, 1, 5, 0));
    list
}

pub fn all() -> Vec<Check> {
    let mut list = around_the_slice();
    list.extend(empty());
    list.push(entry("an equation that is no pattern not counted", TEN, 40, 9, 0, 0));
    list.push(entry("an equation that is no pattern counted", TEN, 40, 10, 7, 7));
    list.push(entry("one more than counted, and no pattern", TEN, 40, 11, 4, 0));
    list.push(entry("more than counted, and broken", "LA 7", 4, 2, 4, 0));
    list
}
