//! The boundary: replies, left-behind words, empty slices and odd lengths.

use tanczotka::{read, show, solve, text, write, write_to_vec, Reply, NONE};

/// `\x.U[x] = \x.f x` as records.
const PROBLEM: [[u32; 4]; 14] = [
    [1, 0, 0, 0],
    [2, 0, 0, 0],
    [3, 1, 0, 0],
    [5, 0, NONE, 0],
    [4, 3, 0, 0],
    [8, 0, NONE, 0],
    [5, 5, NONE, 0],
    [9, 4, 6, 0],
    [6, 7, 0, 0],
    [8, 0, NONE, 0],
    [5, 9, NONE, 0],
    [7, 2, 10, 0],
    [6, 11, 0, 0],
    [10, 8, 12, 1],
];

/// The problem in a table of so many words, the rest being 77.
fn table(words: usize) -> Vec<u32> {
    let mut table = PROBLEM.concat();
    table.resize(words, 77);
    table
}

fn reply(answer: u16, place: u16, used: u16) -> Reply {
    Reply { answer, place, used, spare: 0 }
}

#[test]
fn solving_writes_three_records_and_nothing_past_the_lent_ranges() {
    let (mut table, mut solutions, mut queue) = (table(4 * 18 + 3), vec![77; 20], vec![77; 5]);
    assert_eq!(solve(&mut table, 14, &mut solutions, &mut queue), reply(0, 0, 17));
    assert_eq!(table[..56], PROBLEM.concat());
    assert_eq!(table[56..72], [8, 0, NONE, 0, 5, 14, NONE, 0, 7, 2, 15, 0, 0, 0, 0, 0]);
    assert_eq!(table[72..], [77; 3]);
    assert_eq!(solutions[4], 16);
    assert_eq!(solutions.iter().filter(|&&word| word == NONE).count(), 17);
    assert_eq!(solutions[18..], [77; 2]);
    assert_eq!(queue, [0, 0, 0, 0, 77]);
}

#[test]
fn a_full_table_takes_back_what_was_written() {
    let (mut table, mut solutions, mut queue) = (table(4 * 16), vec![77; 16], vec![77; 2]);
    assert_eq!(solve(&mut table, 14, &mut solutions, &mut queue), reply(9, 0, 0));
    assert_eq!(table[56..], [0; 8]);
    assert_eq!(solutions, [NONE; 16]);
    assert_eq!(queue, [0, 0]);
}

#[test]
fn showing_needs_room_and_an_input_hole() {
    let (mut table, mut solutions, mut queue) = (table(4 * 20), vec![0; 20], vec![0; 8]);
    let mut output = vec![77; 13];
    let shown = show(&mut table, 14, &mut solutions, &mut queue, 4, &mut output);
    assert_eq!(shown, reply(0, 0, 3));
    assert_eq!(output, [8, 0, NONE, 0, 5, 0, NONE, 0, 7, 2, 1, 0, 77]);
    assert_eq!(text(&output, 3).as_deref(), Some("c2(v0)"));
    assert_eq!(show(&mut table, 14, &mut solutions, &mut queue, 4, &mut output[..11]), reply(11, 0, 0));
    assert_eq!(output, [0, 0, 0, 0, 0, 0, 0, 0, 7, 2, 1, 0, 77]);
    assert_eq!(show(&mut table, 14, &mut solutions, &mut queue, 3, &mut output), reply(10, 0, 0));
    assert_eq!(show(&mut table, 14, &mut solutions, &mut queue, usize::MAX, &mut output), reply(10, 0, 0));
}

#[test]
fn empty_slices_are_lent_as_they_are() {
    assert_eq!(solve(&mut [], 0, &mut [], &mut []), reply(0, 0, 0));
    assert_eq!(solve(&mut [], 1, &mut [], &mut []), reply(4, 0, 0));
    assert_eq!(solve(&mut [], usize::MAX, &mut [], &mut []), reply(4, 0, 0));
    assert_eq!(show(&mut [], 0, &mut [], &mut [], 0, &mut []), reply(10, 0, 0));
    assert_eq!(read(&[], &mut []), reply(0, 0, 0));
    assert_eq!(read(b"BT\0\0\0\0\0\0\0\0\0\0\0\0", &mut []), reply(4, 0, 0));
    assert_eq!(write(&[], 0, &mut []), reply(0, 0, 0));
    assert_eq!(write(&[], usize::MAX, &mut []), reply(4, 0, 0));
}

#[test]
fn reading_refuses_lengths_and_marks() {
    let mut table = [77; 9];
    assert_eq!(read(b"BT", &mut table), reply(12, 0, 0));
    assert_eq!(read(b"BT\x01\0\0\0\0\0\0\0\0\0\0\0XX\0\0\0\0\0\0\0\0\0\0\0\0", &mut table), reply(13, 1, 0));
    assert_eq!(table, [77; 9]);
    assert_eq!(read(b"BT\x01\x02\0\0\0\0\0\0\0\0\0\x80", &mut table), reply(0, 0, 1));
    assert_eq!(table, [1, 0x201, 0, 0x8000_0000, 77, 77, 77, 77, 77]);
}

#[test]
fn what_is_written_is_read_again_and_bytes_past_it_stay() {
    let mut file = vec![77; 14 * 14 + 3];
    assert_eq!(write(&table(60), 14, &mut file), reply(0, 0, 14));
    assert_eq!(file[..16], *b"BT\0\0\0\0\0\0\0\0\0\0\0\0AR");
    assert_eq!(file[14 * 3..14 * 4], *b"CE\0\0\0\0\xff\xff\xff\xff\0\0\0\0");
    assert_eq!(file[14 * 13..], *b"EQ\x08\0\0\0\x0c\0\0\0\x01\0\0\0MMM");
    let mut again = vec![77; 60];
    assert_eq!(read(&file[..14 * 14], &mut again), reply(0, 0, 14));
    assert_eq!(again, table(60));
    assert_eq!(write_to_vec(&again, 14).as_deref(), Ok(&file[..14 * 14]));
}

#[test]
fn writing_refuses_and_leaves_every_byte() {
    let table = [1, 0, 0, 0, 6, 1, 0, 0, 77, 77];
    let mut file = [77; 13];
    assert_eq!(write(&table, 3, &mut file), reply(4, 0, 0));
    assert_eq!(write(&table, 2, &mut file), reply(5, 1, 0));
    assert_eq!(write(&table, 1, &mut file), reply(14, 0, 0));
    assert_eq!(write(&table, 0, &mut file), reply(0, 0, 0));
    assert_eq!(file, [77; 13]);
    assert_eq!(write_to_vec(&table, 2), Err(reply(5, 1, 0)));
    assert_eq!(write_to_vec(&table, 1).as_deref(), Ok(&b"BT\0\0\0\0\0\0\0\0\0\0\0\0"[..]));
    assert_eq!(reply(14, 0, 0).words(), "file full");
}

#[test]
fn a_file_has_at_most_2048_records() {
    let bases: Vec<u32> = (0..2049).flat_map(|k| [1, k, 0, 0]).collect();
    assert_eq!(write_to_vec(&bases, 2048).map(|file| file.len()), Ok(28672));
    assert_eq!(write_to_vec(&bases, 2049), Err(reply(4, 0, 0)));
    assert_eq!(write(&bases, 2048, &mut [0; 28671]), reply(14, 0, 0));
}

#[test]
fn words_that_are_no_term_have_no_text() {
    assert_eq!(text(&[], 0), None);
    assert_eq!(text(&[7, 2, NONE], 1), None);
    assert_eq!(text(&[6, 0, 0, 0], 1), None);
    assert_eq!(text(&[7, 2, 0, 0], 1), None);
    assert_eq!(reply(1, 0, 0).words(), "clash: different rigid heads meet");
}
