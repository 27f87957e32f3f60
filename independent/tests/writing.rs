//! Writing a file: each refusal, their order, each boundary, and the way there and back.

mod common;
use common::*;
use independent::stored::checks::checks;
use independent::{read, solve, write};

/// The bytes that the file holds before writing, in these tests.
const OLD: u8 = 0xA5;

/// Writes into so many old bytes.
fn written(table: &[u32], n: usize, bytes: usize) -> (independent::Reply, Vec<u8>) {
    let mut file = vec![OLD; bytes];
    let reply = write(table, n, &mut file);
    (reply, file)
}

/// The reply of a refusal that leaves every byte.
fn refusal(table: &[u32], n: usize, bytes: usize) -> independent::Reply {
    let (reply, file) = written(table, n, bytes);
    assert_ne!(reply.answer, 0, "n {n}, {bytes} bytes");
    assert_eq!(reply.used, 0);
    assert_eq!(file, vec![OLD; bytes], "n {n}, {bytes} bytes");
    reply
}

/// So many base types, all different.
fn base_types(count: usize) -> Vec<u32> {
    (0..count as u32).flat_map(|number| [1, number, 0, 0]).collect()
}

#[test]
fn a_record_is_its_mark_and_three_fields_little_endian() {
    let (said, file) = written(&[1, 0x0403_0201, 0, 0], 1, 14);
    assert_eq!(said, reply(0, 0, 1));
    assert_eq!(file, [b'B', b'T', 1, 2, 3, 4, 0, 0, 0, 0, 0, 0, 0, 0]);
}

#[test]
fn every_tag_has_its_mark() {
    let records = [
        [1, 9, 0, 0],
        [2, 0, 0, 0],
        [3, 0, 0, 0],
        [8, 4095, NO, 0],
        [5, 3, NO, 0],
        [7, 2, 4, 0],
        [6, 5, 0, 0],
        [4, NO, 0, 0],
        [9, 7, NO, 0],
        [10, 6, 8, 1],
    ];
    let (said, file) = written(&table(&records), 10, 140);
    assert_eq!(said, reply(0, 0, 10));
    let marks: Vec<&[u8]> = file.chunks(14).map(|bytes| &bytes[..2]).collect();
    assert_eq!(marks, [b"BT", b"AR", b"KO", b"VA", b"CE", b"CA", b"LA", b"HO", b"HA", b"EQ"]);
    assert_eq!(file[3 * 14 + 2..4 * 14], [0xFF, 0x0F, 0, 0, 0xFF, 0xFF, 0xFF, 0xFF, 0, 0, 0, 0]);
    assert_eq!(file[9 * 14 + 2..], [6, 0, 0, 0, 8, 0, 0, 0, 1, 0, 0, 0]);
}

#[test]
fn no_record_is_an_empty_file() {
    assert_eq!(written(&[], 0, 0), (reply(0, 0, 0), vec![]));
    assert_eq!(written(&[], 0, 3), (reply(0, 0, 0), vec![OLD; 3]));
    assert_eq!(written(&[0; 7], 0, 14), (reply(0, 0, 0), vec![OLD; 14]));
}

#[test]
fn bytes_past_the_file_stay() {
    for past in [0, 1, 13, 14, 15, 40] {
        let (said, file) = written(&base_types(3), 2, 28 + past);
        assert_eq!(said, reply(0, 0, 2));
        assert_eq!(file[..2], *b"BT");
        assert_eq!(file[14..17], *b"BT\x01");
        assert_eq!(file[28..], vec![OLD; past]);
    }
}

#[test]
fn n_above_the_tables_records_is_4() {
    assert_eq!(refusal(&[], 1, 14), reply(4, 0, 0));
    for spare in 0..4 {
        let mut words = base_types(3);
        words.extend(vec![1; spare]);
        assert_eq!(refusal(&words, 4, 56), reply(4, 0, 0), "{spare} words more");
        assert_eq!(written(&words, 3, 42).0, reply(0, 0, 3), "{spare} words more");
    }
    assert_eq!(refusal(&base_types(3)[..11], 3, 42), reply(4, 0, 0));
}

#[test]
fn n_above_2048_is_4_also_in_room() {
    let words = base_types(4100);
    for n in [2047, 2048] {
        let (said, file) = written(&words, n, 14 * n + 1);
        assert_eq!(said, reply(0, 0, n as u32));
        assert_eq!(file[14 * n - 14..14 * n - 10], [b'B', b'T', (n - 1) as u8, 7]);
        assert_eq!(file[14 * n], OLD);
    }
    for n in [2049, 4095, 4096, 4097, 4100, 4101] {
        assert_eq!(refusal(&words, n, 14 * n), reply(4, 0, 0), "n {n}");
    }
    assert_eq!(refusal(&base_types(2047), 2048, 14 * 2048), reply(4, 0, 0));
    assert_eq!(written(&base_types(2048), 2048, 28_672).0, reply(0, 0, 2048));
}

#[test]
fn numbers_far_too_large_are_4() {
    let words = base_types(2);
    for n in [usize::MAX, usize::MAX / 14 + 1, usize::MAX / 4 + 2, u32::MAX as usize, u32::MAX as usize + 2] {
        assert_eq!(refusal(&words, n, 28), reply(4, 0, 0), "n {n}");
        assert_eq!(refusal(&[], n, 0), reply(4, 0, 0), "n {n}");
    }
}

#[test]
fn a_broken_record_is_5_with_the_lowest_place() {
    let broken: [(&[[u32; 4]], u32); 9] = [
        (&[[0, 0, 0, 0]], 0),
        (&[[1, 0, 0, 0], [11, 0, 0, 0], [0, 0, 0, 0]], 1),
        (&[[1, 0, 1, 0]], 0),
        (&[[1, 0, 0, 0], [2, 0, 1, 0]], 1),
        (&[[1, 0, 0, 0], [1, 1, 0, 0], [1, 0, 0, 0]], 2),
        (&[[8, 4096, NO, 0]], 0),
        (&[[8, 0, NO, 0], [6, 0, 0, 0], [6, 0, 0, 0]], 2),
        (&[[1, 0, 0, 0], [8, 0, NO, 0], [10, 1, 1, 0]], 2),
        (&[[1 + 256, 0, 0, 0]], 0),
    ];
    for (records, place) in broken {
        let n = records.len();
        assert_eq!(refusal(&table(records), n, 14 * n), reply(5, place, 0), "{records:?}");
    }
}

/// Every rule of the records section has entries in the stored checks.
#[test]
fn of_the_stored_checks_4_and_5_are_refused_and_all_else_is_written() {
    let mut met = [0; 15];
    for entry in checks() {
        let n = entry.n as usize;
        let (said, _) = written(&entry.words, n, 14 * n.min(4096));
        let expected = match entry.answer {
            4 | 5 => reply(entry.answer, entry.place, 0),
            _ => reply(0, 0, entry.n),
        };
        assert_eq!(said, expected, "{}", entry.name);
        met[entry.answer as usize] += 1;
    }
    assert!([4, 5, 6, 7].iter().all(|&answer| met[answer] >= 15), "{met:?}");
}

#[test]
fn only_the_first_n_records_are_looked_at() {
    let words = table(&[[1, 0, 0, 0], [3, 0, 0, 0], [3, 7, 0, 0]]);
    assert_eq!(written(&words, 2, 28).0, reply(0, 0, 2));
    assert_eq!(refusal(&words, 3, 42), reply(5, 2, 0));
}

#[test]
fn ill_typed_equations_and_no_patterns_are_written() {
    let ill_typed = table(&[[1, 0, 0, 0], [8, 7, NO, 0], [8, 7, NO, 0], [10, 1, 2, 0]]);
    assert_eq!(written(&ill_typed, 4, 56).0, reply(0, 0, 4));
    let mut no_pattern = Lent::new(&example("p07"), 40, 8);
    assert_eq!(no_pattern.solve().answer, 7);
    let bytes = 14 * no_pattern.n;
    assert_eq!(written(&no_pattern.table, no_pattern.n, bytes), (reply(0, 0, 18), example("p07")));
}

#[test]
fn an_output_shorter_than_the_file_is_14() {
    let words = base_types(3);
    for bytes in [0, 1, 13, 14, 27, 28, 40, 41] {
        assert_eq!(refusal(&words, 3, bytes), reply(14, 0, 0), "{bytes} bytes");
    }
    for bytes in [42, 43, 56] {
        assert_eq!(written(&words, 3, bytes).0, reply(0, 0, 3), "{bytes} bytes");
    }
    assert_eq!(refusal(&base_types(2048), 2048, 28_671), reply(14, 0, 0));
}

#[test]
fn the_order_is_4_then_5_then_14() {
    let broken = table(&[[1, 0, 0, 0], [12, 0, 0, 0]]);
    assert_eq!(refusal(&broken, 3, 0), reply(4, 0, 0));
    assert_eq!(refusal(&broken, 2, 0), reply(5, 1, 0));
    assert_eq!(refusal(&broken, 1, 0), reply(14, 0, 0));
    let mut long = base_types(2049);
    long[0] = 99;
    assert_eq!(refusal(&long, 2049, 0), reply(4, 0, 0));
    assert_eq!(refusal(&long, 2048, 0), reply(5, 0, 0));
    assert_eq!(refusal(&long[4..], 2048, 0), reply(14, 0, 0));
}

#[test]
fn reading_what_was_written_gives_the_same_records() {
    let lent = Lent::new(&example("file"), 14, 4);
    let (_, file) = written(&lent.table, 14, 14 * 14);
    for words in [56, 57, 70] {
        let mut again = vec![3; words];
        assert_eq!(read(&file, &mut again), reply(0, 0, 14));
        assert_eq!(again[..56], lent.table);
        assert_eq!(again[56..], vec![3; words - 56]);
    }
}

#[test]
fn writing_what_was_read_gives_the_same_bytes() {
    for number in 1..=14 {
        let file = example(&format!("p{number:02}"));
        let lent = Lent::new(&file, 60, 4);
        assert_eq!(written(&lent.table, lent.n, file.len()), (reply(0, 0, lent.n as u32), file));
    }
}

#[test]
fn a_file_with_bad_fields_reads_but_is_not_written_back() {
    let bad = file("BT 0\nKO 0 1\n");
    let mut words = [0; 8];
    assert_eq!(read(&bad, &mut words), reply(0, 0, 2));
    assert_eq!(refusal(&words, 2, 28), reply(5, 1, 0));
}

#[test]
fn what_solving_leaves_is_written() {
    let mut lent = Lent::new(&example("p10"), 60, 8);
    let solved = lent.solve();
    assert_eq!((solved.answer, solved.used as usize), (0, lent.n + 10));
    let used = solved.used as usize;
    let (said, file) = written(&lent.table, used, 14 * used);
    assert_eq!(said, reply(0, 0, solved.used));
    assert_eq!(file[..14 * lent.n], example("p10"));
    assert_eq!(refusal(&lent.table, used + 1, 14 * used + 14), reply(5, solved.used, 0));
}

/// P6 writes 2 records; with 2,046 before them they still fit in a file, with 2,047 not.
#[test]
fn what_solving_leaves_is_written_up_to_2048_records() {
    for (n, expected) in [(2045, 0), (2046, 0), (2047, 4)] {
        let mut lent = Lent::new(&example("p06"), 4096, 8);
        for number in lent.n..n {
            lent.table[4 * number..4 * number + 4].copy_from_slice(&[3, 0, 0, 0]);
        }
        let solved = solve(&mut lent.table, n, &mut lent.solutions, &mut lent.queue);
        assert_eq!((solved.answer, solved.used as usize), (0, n + 2));
        assert_eq!(written(&lent.table, n + 2, 14 * (n + 2)).0.answer, expected, "n {n}");
    }
}
