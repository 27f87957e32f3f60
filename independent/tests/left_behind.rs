//! The words left behind, for every answer.

mod common;
use common::*;
use independent::{read, show, solve};

const LITTER: u32 = 0xDEAD;

/// Slices longer than counted, all litter past the input.
fn littered(name: &str, records: usize, pairs: usize) -> Lent {
    let mut lent = Lent::new(&example(name), records, pairs);
    let n = lent.n;
    lent.table.iter_mut().skip(4 * n).for_each(|word| *word = LITTER);
    lent.table.extend([LITTER; 3]);
    lent.solutions = vec![LITTER; records + 2];
    lent.queue = vec![LITTER; 2 * pairs + 1];
    lent
}

#[test]
fn a_stopped_run_leaves_zeros_nones_and_zeros() {
    for (name, answer) in [("p03", 1), ("p04", 2), ("p05", 3)] {
        let mut lent = littered(name, 40, 5);
        let n = lent.n;
        let input = lent.table[..4 * n].to_vec();
        assert_eq!(lent.solve(), reply(answer, 0, 0), "{name}");
        assert_eq!(lent.table[..4 * n], input[..]);
        assert!(lent.table[4 * n..160].iter().all(|&word| word == 0));
        assert_eq!(lent.table[160..], [LITTER; 3]);
        assert!(lent.solutions[..40].iter().all(|&word| word == NO));
        assert_eq!(lent.solutions[40..], [LITTER; 2]);
        assert_eq!(lent.queue[..10], [0; 10]);
        assert_eq!(lent.queue[10], LITTER);
    }
}

#[test]
fn queue_full_and_table_full_leave_the_same() {
    for (name, records, pairs, answer) in [("p14", 20, 1, 8), ("p10", 35, 4, 9)] {
        let mut lent = littered(name, records, pairs);
        let n = lent.n;
        assert_eq!(lent.solve(), reply(answer, 0, 0), "{name}");
        assert!(lent.table[4 * n..4 * records].iter().all(|&word| word == 0));
        assert!(lent.solutions[..records].iter().all(|&word| word == NO));
        assert_eq!(lent.queue[..2 * pairs], vec![0; 2 * pairs][..]);
        assert_eq!(lent.table[4 * records..], [LITTER; 3]);
    }
}

#[test]
fn a_solved_run_zeroes_the_rest_and_keeps_words_past_the_ranges() {
    let mut lent = littered("p08", 40, 5);
    assert_eq!(lent.solve(), reply(0, 0, 27));
    assert_eq!(lent.record(26), [9, 10, 25, 0]);
    assert!(lent.table[4 * 27..160].iter().all(|&word| word == 0));
    assert_eq!(lent.table[160..], [LITTER; 3]);
    let solved: Vec<usize> = (0..40).filter(|&k| lent.solutions[k] != NO).collect();
    assert_eq!((solved, lent.solutions[8]), (vec![8], 26));
    assert_eq!(lent.solutions[40..], [LITTER; 2]);
    assert_eq!(lent.queue, [vec![0; 10], vec![LITTER]].concat());
}

#[test]
fn refusals_write_nothing() {
    for (name, n, solutions, answer) in
        [("p07", 18, 42, 7), ("p03", 41, 42, 4), ("p03", 11, 39, 4), ("p03", 12, 42, 5)]
    {
        let mut lent = littered(name, 40, 5);
        lent.solutions.truncate(solutions);
        let before = (lent.table.clone(), lent.solutions.clone(), lent.queue.clone());
        let mut output = vec![LITTER; 30];
        assert_eq!(solve(&mut lent.table, n, &mut lent.solutions, &mut lent.queue).answer, answer, "{name}");
        let shown = show(&mut lent.table, n, &mut lent.solutions, &mut lent.queue, 0, &mut output);
        assert!([answer, 10].contains(&shown.answer));
        assert_eq!((lent.table, lent.solutions, lent.queue), before);
        assert_eq!(output, vec![LITTER; 30]);
    }
}

#[test]
fn show_asks_for_an_input_hole_before_typing() {
    let mut lent = littered("p07", 40, 5);
    let before = lent.table.clone();
    let mut output = vec![LITTER; 9];
    for hole in [0, 7, 17, 18, 40, 4096, usize::MAX] {
        assert_eq!(lent.show(hole, &mut output), reply(10, 0, 0), "hole {hole}");
    }
    assert_eq!(lent.show(8, &mut output), reply(7, 13, 0));
    assert_eq!((lent.table, output), (before, vec![LITTER; 9]));
}

#[test]
fn a_new_hole_cannot_be_shown() {
    let mut lent = littered("p06", 40, 5);
    assert_eq!(lent.solve(), reply(0, 0, 26));
    assert_eq!(lent.record(24)[0], 4);
    assert_eq!(lent.show(24, &mut [0; 40]), reply(10, 0, 0));
}

#[test]
fn shown_output_is_zero_past_its_records() {
    let mut lent = littered("p10", 40, 5);
    let mut output = vec![LITTER; 4 * 7 + 2];
    assert_eq!(lent.show(7, &mut output), reply(0, 0, 5));
    let expected = [8, 0, NO, 0, 5, 0, NO, 0, 9, 27, 1, 0, 5, 2, NO, 0, 7, 4, 3, 0];
    assert_eq!(output[..20], expected);
    assert_eq!(output[20..28], [0; 8]);
    assert_eq!(output[28..], [LITTER; 2]);
}

#[test]
fn too_small_an_output_is_zeroed_and_the_table_stays_solved() {
    let mut lent = littered("p10", 40, 5);
    let mut solved = littered("p10", 40, 5);
    solved.solve();
    let mut output = vec![LITTER; 4 * 4 + 3];
    assert_eq!(lent.show(7, &mut output), reply(11, 0, 0));
    assert_eq!(output, [vec![0; 16], vec![LITTER; 3]].concat());
    assert_eq!((lent.table, lent.solutions, lent.queue), (solved.table, solved.solutions, solved.queue));
}

#[test]
fn a_stopped_show_leaves_the_output_alone() {
    let mut lent = littered("p05", 40, 5);
    let mut output = vec![LITTER; 40];
    assert_eq!(lent.show(6, &mut output), reply(3, 0, 0));
    assert_eq!(output, vec![LITTER; 40]);
}

#[test]
fn words_past_the_largest_counts_are_never_touched() {
    let mut lent = Lent::new(&example("p08"), 4096, 1024);
    lent.table.extend([LITTER; 9]);
    lent.solutions.extend([LITTER; 2]);
    lent.queue.extend([LITTER; 4]);
    let mut output = vec![LITTER; 4 * 4096 + 8];
    assert_eq!(lent.show(8, &mut output), reply(0, 0, 3));
    assert_eq!(lent.table[4 * 4096..], [LITTER; 9]);
    assert_eq!(lent.solutions[4096..], [LITTER; 2]);
    assert_eq!(lent.queue[2048..], [LITTER; 4]);
    assert_eq!(output[4 * 4096..], [LITTER; 8]);
    assert!(output[12..4 * 4096].iter().all(|&word| word == 0));
}

#[test]
fn reading_writes_only_the_records_of_the_file() {
    let mut table = vec![LITTER; 20];
    assert_eq!(read(&file("BT 3\nAR 0 0\n"), &mut table), reply(0, 0, 2));
    assert_eq!(table[..8], [1, 3, 0, 0, 2, 0, 0, 0]);
    assert_eq!(table[8..], [LITTER; 12]);
}
