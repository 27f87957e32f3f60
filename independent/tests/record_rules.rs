//! Answer 5: each rule of the records section broken once, with its place.

mod common;
use common::*;
use independent::check;

fn place(records: &[[u32; 4]]) -> Option<u32> {
    let words = table(records);
    let reply = check(&words, records.len());
    (reply.answer == 5).then_some(reply.place)
}

#[test]
fn unknown_tags_break() {
    for tag in [0, 11, 12, NO] {
        assert_eq!(place(&[[1, 0, 0, 0], [tag, 0, 0, 0]]), Some(1), "tag {tag}");
    }
}

#[test]
fn unused_fields_must_be_zero() {
    let fine: [[u32; 4]; 9] = [
        [1, 9, 0, 0],
        [2, 0, 0, 0],
        [3, 0, 0, 0],
        [4, NO, 0, 0],
        [8, 0, NO, 0],
        [5, 4, NO, 0],
        [7, 2, 5, 0],
        [6, 6, 0, 0],
        [9, 3, NO, 0],
    ];
    assert_eq!(place(&fine), None);
    for (number, field) in
        [(0, 2), (0, 3), (1, 3), (2, 2), (2, 3), (3, 3), (4, 3), (5, 3), (6, 3), (7, 2), (7, 3), (8, 3)]
    {
        let mut broken = fine;
        broken[number][field] = 1;
        assert_eq!(place(&broken), Some(number as u32), "record {number} field {field}");
    }
}

#[test]
fn references_go_down() {
    assert_eq!(place(&[[2, 0, 0, 0]]), Some(0));
    assert_eq!(place(&[[3, 1, 0, 0], [1, 0, 0, 0]]), Some(0));
    assert_eq!(place(&[[1, 0, 0, 0], [3, NO, 0, 0]]), Some(1));
    assert_eq!(place(&[[1, 0, 0, 0], [2, 0, NO, 0]]), Some(1));
    assert_eq!(place(&[[6, 0, 0, 0]]), Some(0));
    assert_eq!(place(&[[5, NO, NO, 0]]), Some(0));
    assert_eq!(place(&[[1, 0, 0, 0], [5, 0, 1, 0]]), Some(1));
}

#[test]
fn references_are_of_the_right_kind() {
    let start = [[1, 0, 0, 0], [2, 0, 0, 0], [3, 0, 0, 0], [4, NO, 0, 0], [8, 0, NO, 0]];
    let wrong: [[u32; 4]; 10] = [
        [2, 2, 0, 0],
        [3, 2, 0, 0],
        [4, NO, 1, 0],
        [4, 0, 0, 0],
        [5, 2, NO, 0],
        [5, 3, NO, 0],
        [6, 0, 0, 0],
        [7, 3, NO, 0],
        [9, 2, NO, 0],
        [10, 4, 0, 0],
    ];
    for record in wrong {
        let mut records = start.to_vec();
        records.push(record);
        assert_eq!(place(&records), Some(5), "{record:?}");
    }
}

#[test]
fn variable_numbers_are_below_4096() {
    assert_eq!(place(&[[8, 4095, NO, 0]]), None);
    assert_eq!(place(&[[8, 4096, NO, 0]]), Some(0));
    assert_eq!(place(&[[8, NO, NO, 0]]), Some(0));
}

#[test]
fn terms_and_cells_are_used_once() {
    let term = [8, 0, NO, 0];
    assert_eq!(place(&[term, [6, 0, 0, 0], [6, 0, 0, 0]]), Some(2));
    assert_eq!(place(&[term, [5, 0, NO, 0], [5, 0, NO, 0]]), Some(2));
    assert_eq!(place(&[term, [5, 0, NO, 0], [8, 1, 1, 0], [8, 1, 1, 0]]), Some(3));
    assert_eq!(place(&[[1, 0, 0, 0], term, [10, 1, 1, 0]]), Some(2));
    assert_eq!(place(&[[1, 0, 0, 0], [5, 0, NO, 0], [4, 1, 0, 0], [4, 1, 0, 0]]), Some(3));
    assert_eq!(place(&[[1, 0, 0, 0], [5, 0, NO, 0], [5, 0, 1, 0], [5, 0, 1, 0]]), Some(3));
    assert_eq!(place(&[[1, 0, 0, 0], [5, 0, NO, 0], [5, 0, NO, 0]]), None);
}

#[test]
fn types_are_all_different() {
    assert_eq!(place(&[[1, 4, 0, 0], [1, 5, 0, 0], [1, 4, 0, 0]]), Some(2));
    assert_eq!(place(&[[1, 4, 0, 0], [2, 0, 0, 0], [2, 1, 0, 0], [2, 0, 0, 0]]), Some(3));
    assert_eq!(place(&[[1, 0, 0, 0], [2, 0, 0, 0]]), None);
}

#[test]
fn a_list_is_of_types_or_of_terms() {
    let start = [[1, 0, 0, 0], [8, 0, NO, 0], [5, 1, NO, 0], [5, 0, 2, 0], [5, 0, 3, 0]];
    assert_eq!(place(&start), Some(3));
    assert_eq!(place(&[[1, 0, 0, 0], [8, 0, NO, 0], [5, 1, NO, 0], [4, 2, 0, 0]]), Some(3));
    for head in [[7, 1, 2, 0], [8, 0, 2, 0], [9, 3, 2, 0]] {
        let records = [[1, 0, 0, 0], [3, 0, 0, 0], [5, 0, NO, 0], [4, NO, 0, 0], head];
        assert_eq!(place(&records), Some(4), "{head:?}");
    }
}

#[test]
fn a_list_has_at_most_sixteen_cells() {
    let mut records = vec![[1, 0, 0, 0]];
    for cell in 0..16 {
        records.push([5, 0, if cell == 0 { NO } else { cell }, 0]);
    }
    assert_eq!(place(&records), None);
    records.push([5, 0, 16, 0]);
    records.push([5, 0, 17, 0]);
    assert_eq!(place(&records), Some(17));
}

#[test]
fn the_lowest_broken_record_is_named_before_any_other_answer() {
    let records = [[1, 0, 0, 0], [8, 7, NO, 0], [8, 7, NO, 0], [10, 1, 2, 0], [6, 3, 0, 0], [0, 0, 0, 0]];
    assert_eq!(place(&records), Some(4));
    assert_eq!(check(&table(&records), 4), reply(6, 3, 0));
}
