//! The examples of the document: answers, new records, prints.

mod common;
use common::*;
use independent::program;

/// Answer and new records of an example in full room.
fn outcome(name: &str) -> (u32, usize) {
    let mut lent = Lent::new(&example(name), 4096, 1024);
    let reply = lent.solve();
    let new = if reply.answer == 0 { reply.used as usize - lent.n } else { 0 };
    (reply.answer, new)
}

#[test]
fn examples_p1_to_p13_and_q2_give_the_answers_of_the_table() {
    let expected = [
        ("p01", 0, 0),
        ("p02", 0, 0),
        ("p03", 1, 0),
        ("p04", 2, 0),
        ("p05", 3, 0),
        ("p06", 0, 2),
        ("p07", 7, 0),
        ("p08", 0, 3),
        ("p09", 0, 8),
        ("p10", 0, 10),
        ("p11", 1, 0),
        ("p12", 0, 2),
        ("p13", 0, 3),
        ("p14", 0, 0),
        ("q1", 0, 3),
        ("q2", 7, 0),
    ];
    for (name, answer, new) in expected {
        assert_eq!(outcome(name), (answer, new), "{name}");
    }
}

#[test]
fn p7_and_q2_name_the_lowest_offending_occurrence() {
    assert_eq!(Lent::new(&example("p07"), 30, 4).solve(), reply(7, 13, 0));
    assert_eq!(Lent::new(&example("q2"), 30, 4).solve(), reply(7, 12, 0));
}

#[test]
fn p14_needs_two_places_in_the_queue() {
    let file = example("p14");
    assert_eq!(Lent::new(&file, 17, 0).solve(), reply(8, 0, 0));
    assert_eq!(Lent::new(&file, 17, 1).solve(), reply(8, 0, 0));
    assert_eq!(Lent::new(&file, 17, 2).solve(), reply(0, 0, 17));
}

#[test]
fn q1_needs_seventeen_records() {
    let file = example("q1");
    for records in 14..17 {
        assert_eq!(Lent::new(&file, records, 1).solve(), reply(9, 0, 0), "R = {records}");
    }
    let mut lent = Lent::new(&file, 17, 1);
    assert_eq!(lent.solve(), reply(0, 0, 17));
    assert_eq!(lent.record(14), [8, 0, NO, 0]);
    assert_eq!(lent.record(15), [5, 14, NO, 0]);
    assert_eq!(lent.record(16), [7, 2, 15, 0]);
    assert_eq!(lent.solutions[4], 16);
}

#[test]
fn p10_writes_narrowing_then_occurrence_then_head() {
    let mut lent = Lent::new(&example("p10"), 36, 8);
    assert_eq!(lent.solve(), reply(0, 0, 36));
    let new: Vec<[u32; 4]> = (26..36).map(|number| lent.record(number)).collect();
    let expected = [
        [5, 0, NO, 0],
        [4, 26, 0, 0],
        [8, 0, NO, 0],
        [5, 28, NO, 0],
        [9, 27, 29, 0],
        [8, 0, NO, 0],
        [5, 31, NO, 0],
        [9, 27, 32, 0],
        [5, 33, NO, 0],
        [7, 4, 34, 0],
    ];
    assert_eq!(new, expected);
    assert_eq!((lent.solutions[7], lent.solutions[10], lent.solutions[27]), (35, 30, NO));
}

#[test]
fn p10_is_table_full_in_any_smaller_room() {
    let file = example("p10");
    for records in 26..36 {
        assert_eq!(Lent::new(&file, records, 8).solve(), reply(9, 0, 0), "R = {records}");
    }
}

#[test]
fn the_file_prints_exactly_two_lines() {
    assert_eq!(program(&example("file")), b"0 0 17\nh4 = c2(v0)\n");
}

#[test]
fn expected_prints_are_what_the_program_prints() {
    let folder = format!("{}/../examples/expected", env!("CARGO_MANIFEST_DIR"));
    let mut names: Vec<String> = (1..=14).map(|k| format!("p{k:02}")).collect();
    names.extend(["q1", "q2", "file"].map(String::from));
    for name in names {
        let kept = std::fs::read(format!("{folder}/{name}.out")).expect("expected print");
        assert_eq!(program(&example(&name)), kept, "{name}");
    }
}
