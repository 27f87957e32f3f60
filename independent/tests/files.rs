//! Files: their limits, the order of refusals, and what the program prints for them.

mod common;
use common::*;
use independent::{program, read};

fn base_types(count: usize) -> Vec<u8> {
    file(&(0..count).map(|number| format!("BT {number}\n")).collect::<String>())
}

#[test]
fn an_empty_file_is_a_problem_without_records() {
    assert_eq!(read(&[], &mut []), reply(0, 0, 0));
    assert_eq!(program(&[]), b"0 0 0\n");
}

#[test]
fn the_longest_file_is_read_and_one_record_more_is_not() {
    let mut table = vec![5; 4 * 4096];
    let longest = base_types(2048);
    assert_eq!(longest.len(), 28_672);
    assert_eq!(read(&longest, &mut table), reply(0, 0, 2048));
    assert_eq!(program(&longest), b"0 0 2048\n");
    assert_eq!(read(&base_types(2049), &mut table), reply(12, 0, 0));
    assert_eq!(program(&base_types(2049)), b"12 0 0\n");
}

#[test]
fn lengths_that_are_no_multiple_are_refused() {
    let good = base_types(3);
    for length in (0..good.len()).filter(|length| length % 14 != 0) {
        assert_eq!(read(&good[..length], &mut [0; 40]), reply(12, 0, 0), "length {length}");
    }
}

#[test]
fn a_small_table_is_answer_4_before_an_unknown_mark() {
    let mut bad = base_types(3);
    bad[14] = b'X';
    assert_eq!(read(&bad, &mut [0; 11]), reply(4, 0, 0));
    assert_eq!(read(&bad, &mut [0; 12]), reply(13, 1, 0));
}

#[test]
fn a_refused_mark_writes_nothing() {
    let mut bad = base_types(3);
    bad[28] = b'b';
    let mut table = [9; 12];
    assert_eq!(read(&bad, &mut table), reply(13, 2, 0));
    assert_eq!(table, [9; 12]);
    assert_eq!(program(&bad), b"13 2 0\n");
}

#[test]
fn refused_problems_print_one_line() {
    assert_eq!(program(&file("KO 0\n")), b"5 0 0\n");
    assert_eq!(program(&file("BT 0\nBT 0\nHO NONE 0\n")), b"5 1 0\n");
    assert_eq!(program(&example("p03")), b"1 0 0\n");
}

/// 13 holes, each two copies of the next: the first answer is too long to show.
#[test]
fn an_answer_too_long_to_show_prints_a_question_mark() {
    let mut text = "BT 0\nAR 0 0\nAR 0 1\nKO 2\n".to_string();
    let levels = 13;
    (0..=levels).for_each(|_| text.push_str("HO NONE 0\n"));
    let mut next = 4 + levels + 1;
    let mut equations = String::new();
    for level in 0..levels {
        let (hole, below) = (4 + level, 5 + level);
        text.push_str(&format!("HA {hole} NONE\nHA {below} NONE\nHA {below} NONE\n"));
        text.push_str(&format!("CE {} NONE\nCE {} {}\nCA 3 {}\n", next + 2, next + 1, next + 3, next + 4));
        equations.push_str(&format!("EQ {next} {} 0\n", next + 5));
        next += 6;
    }
    text.push_str(&equations);
    let printed = String::from_utf8(program(&file(&text))).unwrap();
    let lines: Vec<&str> = printed.lines().collect();
    assert_eq!(lines.len(), 15);
    assert_eq!(lines[1], "h4 = ?");
    assert_eq!(lines[15 - 3], "h15 = c3(c3(h17,h17),c3(h17,h17))");
    assert_eq!(lines[14], "h17 = h17");
}
