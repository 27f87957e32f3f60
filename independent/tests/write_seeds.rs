//! Generated tables through the self-check of writing, and their generator.

use independent::commands::writes::write_writes;
use independent::generate::append::Editor;
use independent::generate::files::file_problem;
use independent::generate::writes::{write_problem, WriteKind};
use independent::generate::Scale;
use independent::machine::records::lowest_broken;
use independent::random::Random;
use independent::selfcheck::writes::{check_write, written_back_faults};
use independent::words::{put, BT, EQ};
use independent::write;

#[test]
fn generated_tables_have_no_fault() {
    for (scale, count) in [(Scale::Small, 1500), (Scale::Usual, 300)] {
        for index in 0..count {
            let report = check_write(&write_problem(31, index, scale));
            assert_eq!(report.faults, Vec::<String>::new(), "seed 31, table {index}, {scale:?}");
        }
    }
}

#[test]
fn generated_files_are_written_back_as_they_should() {
    for index in 0..300 {
        let given = file_problem(8, index, Scale::Small);
        assert_eq!(written_back_faults(write, &given.file), Vec::<String>::new(), "file {index}");
    }
}

#[test]
fn every_answer_is_met_for_every_kind() {
    let mut met = [[0; 15]; WriteKind::ALL.len()];
    for index in 0..3000 {
        let mut p = write_problem(6, index, Scale::Usual);
        let kind = WriteKind::ALL.iter().position(|&kind| kind == p.kind).unwrap();
        met[kind][write(&p.table, p.n, &mut p.file).answer as usize] += 1;
    }
    for (kind, answers) in WriteKind::ALL.iter().zip(met) {
        for answer in [0, 4, 5, 14] {
            assert!(answers[answer] > 0, "{kind:?} never has answer {answer}");
        }
        assert_eq!(answers.iter().sum::<i32>(), [0, 4, 5, 14].map(|answer| answers[answer]).iter().sum());
    }
}

/// Whether n, R and the file's length stand so to each other.
type Stand = fn(usize, usize, usize) -> bool;

#[test]
fn every_boundary_is_met() {
    let stands: [(&str, u32, Stand); 16] = [
        ("n = 0", 0, |n, _, _| n == 0),
        ("n = 1", 0, |n, _, _| n == 1),
        ("n = R", 0, |n, records, _| n == records),
        ("n = R + 1", 4, |n, records, _| n == records + 1),
        ("n = 2,047", 0, |n, _, _| n == 2047),
        ("n = 2,048", 0, |n, _, _| n == 2048),
        ("n = 2,048, one byte short", 14, |n, _, bytes| n == 2048 && bytes == 28_671),
        ("n = 2,049 in room", 4, |n, records, bytes| n == 2049 && n <= records && bytes >= 14 * n),
        ("n = 4,096 in room", 4, |n, records, bytes| n == 4096 && n <= records && bytes >= 14 * n),
        ("n = 4,097", 4, |n, records, bytes| n == 4097 && records == 4096 && bytes >= 14 * n),
        ("one byte short", 14, |n, _, bytes| bytes + 1 == 14 * n),
        ("no byte", 14, |n, _, bytes| n > 0 && bytes == 0),
        ("exactly the file", 0, |n, _, bytes| bytes == 14 * n),
        ("one byte more", 0, |n, _, bytes| bytes == 14 * n + 1),
        ("a record's bytes more", 0, |n, _, bytes| bytes >= 14 * n + 14),
        ("5 before 14", 5, |n, _, bytes| bytes < 14 * n),
    ];
    let mut met = [0; 16];
    for index in 0..4000 {
        let mut p = write_problem(14, index, Scale::Usual);
        let (records, bytes) = ((p.table.len() / 4).min(4096), p.file.len());
        let answer = write(&p.table, p.n, &mut p.file).answer;
        for (count, (_, expected, stand)) in met.iter_mut().zip(stands) {
            *count += i32::from(p.n < 5000 && answer == expected && stand(p.n, records, bytes));
        }
    }
    for ((name, ..), count) in stands.iter().zip(met) {
        assert!(count > 0, "{name} never met");
    }
}

#[test]
fn n_ends_just_before_and_just_behind_a_broken_record() {
    let (mut before, mut behind) = (0, 0);
    for index in 0..2000 {
        let mut p = write_problem(9, index, Scale::Small);
        let broken = lowest_broken(&p.table, p.table.len() / 4);
        let reply = write(&p.table, p.n, &mut p.file);
        before += i32::from(reply.answer == 0 && p.n > 0 && broken == Some(p.n));
        behind += i32::from(reply.answer == 5 && reply.place as usize + 1 == p.n);
    }
    assert!(before >= 100 && behind >= 100, "{before} before, {behind} behind");
}

#[test]
fn tables_that_solving_does_not_solve_are_written_and_written_after_it_too() {
    let mut met = [0; 14];
    let mut handed = [0; 15];
    for index in 0..600 {
        let given = write_problem(12, index, Scale::Small);
        let report = check_write(&given);
        if report.answer == 0 {
            met[report.solving as usize] += 1;
        }
        if given.kind == WriteKind::Handed {
            handed[report.answer as usize] += 1;
        }
    }
    for answer in [0, 1, 2, 3, 6, 7, 9] {
        assert!(met[answer] > 0, "never written where solving answers {answer}: {met:?}");
    }
    assert_eq!(met[5], 0);
    assert!([0, 5, 14].iter().all(|&answer| handed[answer] > 0), "{handed:?}");
}

#[test]
fn appended_records_keep_the_rules() {
    for seed in 0..40 {
        let mut random = Random::new(seed);
        let mut editor = Editor::default();
        (0..400).for_each(|_| editor.append(&mut random, EQ));
        let mut table = vec![0; 1600];
        editor.records.iter().enumerate().for_each(|(number, &record)| put(&mut table, number, record));
        assert_eq!(lowest_broken(&table, 400), None, "seed {seed}");
        for tag in BT..=EQ {
            assert!(editor.records.iter().any(|record| record.tag == tag), "seed {seed}, tag {tag}");
        }
    }
}

#[test]
fn equal_seeds_give_equal_tables_and_small_ones_are_small() {
    for index in 0..400 {
        let (one, two) = (write_problem(2, index, Scale::Small), write_problem(2, index, Scale::Small));
        assert_eq!((&one.table, one.n, &one.file), (&two.table, two.n, &two.file));
        assert!(one.table.len() < 4 * 90 && one.file.len() < 14 * 100, "table {index}");
    }
    let tables: Vec<Vec<u32>> = (0..20).map(|seed| write_problem(seed, 0, Scale::Usual).table).collect();
    assert!(tables.windows(2).any(|two| two[0] != two[1]));
}

#[test]
fn the_line_format_is_as_described() {
    let mut out = Vec::new();
    write_writes(&mut out, 1, 3, Scale::Small).unwrap();
    let text = String::from_utf8(out).unwrap();
    let names: Vec<&str> = text.lines().map(|line| line.split(' ').next().unwrap()).collect();
    let block = ["problem", "table", "n", "file", "write", "write-file", "end"];
    assert_eq!(names, [block, block, block].concat());
}
