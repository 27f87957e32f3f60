//! The stored replays: every answer, every boundary, small outputs, no fault in the self-check.

use independent::generate::files::FileProblem;
use independent::generate::problem::{Kind, Problem};
use independent::generate::writes::{WriteKind, WriteProblem};
use independent::selfcheck::{check_problem, files::file_faults, writes::check_write};
use independent::stored::replays::boundaries::NEEDS;
use independent::stored::replays::{file_replays, problems, write_replays, Replay, WriteReplay};
use independent::{check, read, show, solve, write, Reply};
use std::collections::{BTreeMap, BTreeSet};

fn solved(replay: &Replay) -> Reply {
    let mut p = replay.clone();
    solve(&mut p.table, p.n as usize, &mut p.solutions, &mut p.queue)
}

fn shown(replay: &Replay) -> Reply {
    let mut p = replay.clone();
    let (n, hole) = (p.n as usize, p.hole as usize);
    show(&mut p.table, n, &mut p.solutions, &mut p.queue, hole, &mut p.output)
}

fn named(part: &str) -> Vec<Replay> {
    problems().into_iter().filter(|replay| replay.name.starts_with(part)).collect()
}

#[test]
fn names_are_different_and_every_answer_is_met() {
    let (problems, files, tables) = (problems(), file_replays(), write_replays());
    let names = problems.iter().map(|p| &p.name).chain(files.iter().map(|f| &f.name));
    let names: BTreeSet<_> = names.chain(tables.iter().map(|t| &t.name)).collect();
    assert_eq!(names.len(), problems.len() + files.len() + tables.len());
    assert!(problems.len() >= 260 && files.len() >= 36, "{} and {}", problems.len(), files.len());
    let mut answers: BTreeMap<u32, u32> = BTreeMap::new();
    for replay in &problems {
        *answers.entry(solved(replay).answer).or_default() += 1;
        *answers.entry(shown(replay).answer).or_default() += 1;
    }
    assert!((0..12).all(|answer| answers.get(&answer).is_some_and(|&count| count > 8)), "{answers:?}");
}

#[test]
fn the_documents_examples_come_to_their_answers() {
    let expected = [
        ("P1", 0, 0),
        ("P2", 0, 0),
        ("P3", 1, 0),
        ("P4", 2, 0),
        ("P5", 3, 0),
        ("P6", 0, 2),
        ("P7", 7, 0),
        ("P8", 0, 3),
        ("P9", 0, 8),
        ("P10", 0, 10),
        ("P11", 1, 0),
        ("P12", 0, 2),
        ("P13", 0, 3),
        ("P14", 0, 0),
        ("P14 with C = 1", 8, 0),
        ("Q1", 0, 3),
        ("Q1 with a record less", 9, 0),
        ("Q2", 7, 0),
    ];
    let list = named("documents: ");
    assert_eq!(list.len(), expected.len());
    for (replay, (name, answer, new)) in list.iter().zip(expected) {
        let reply = solved(replay);
        let found = if reply.answer == 0 { reply.used - replay.n } else { 0 };
        assert_eq!((&replay.name[11..], reply.answer, found), (name, answer, new));
    }
}

#[test]
fn boundaries_are_where_they_are_said_to_be() {
    for need in &NEEDS {
        for replay in named(&format!("boundaries: {},", need.name)) {
            let new = replay.table.len() / 4 - replay.n as usize;
            let pairs = replay.queue.len() / 2;
            let expected = match (new < need.new, pairs < need.pairs) {
                (true, _) => 9,
                (_, true) => 8,
                _ => need.answer,
            };
            let (solving, showing) = (solved(&replay), shown(&replay));
            assert_eq!(solving.answer, expected, "{}", replay.name);
            let small = expected == 0 && replay.output.len() / 4 < need.shown;
            assert_eq!(showing.answer, if small { 11 } else { expected }, "{}", replay.name);
            if expected == 0 {
                assert_eq!(solving.used as usize, replay.n as usize + need.new, "{}", replay.name);
            }
        }
    }
}

#[test]
fn steps_and_shows_need_exactly_their_room() {
    for replay in named("steps: ").into_iter().chain(named("large: ").into_iter().take(2)) {
        let reply = solved(&replay);
        let full = 4 * reply.used as usize == replay.table.len();
        assert!([1, 2, 3].contains(&reply.answer) || full, "{}: {reply:?}", replay.name);
    }
    for replay in named("shows: ") {
        let said = replay.name.contains(" in 0 ") || replay.name.ends_with("3 words");
        assert_eq!(shown(&replay).answer, if said { 11 } else { 0 }, "{}", replay.name);
    }
}

#[test]
fn files_are_answered_as_their_names_say() {
    let mut answers = [0; 14];
    for file in file_replays() {
        let answer = read(&file.file, &mut file.table.clone()).answer;
        answers[answer as usize] += 1;
        let marked = file.name.contains(" marked ") || file.name.ends_with("two unknown marks");
        let expected = match file.name.as_str() {
            _ if marked => 13,
            "files: no bytes, into no words" | "files: the first 14 bytes" | "files: every mark" => 0,
            "files: the first 13 bytes" | "files: the first 15 bytes" => 12,
            "files: odd bytes, into no words" | "files: an unknown mark and odd bytes" => 12,
            "files: longer than 28,672 bytes" => 12,
            "files: an unknown mark and too small a table" => 4,
            "files: whole, into 55 words" | "files: 28,672 bytes into a smaller table" => 4,
            "files: whole, into 56 words" | "files: the first 196 bytes" => 0,
            _ => continue,
        };
        assert_eq!(answer, expected, "{}", file.name);
    }
    assert!([0, 4, 12, 13].iter().all(|&answer| answers[answer] >= 7), "{answers:?}");
}

/// Name, then answer, place and used.
const WRITTEN: [(&str, [u32; 3]); 36] = [
    ("every mark, into 196 bytes", [0, 0, 14]),
    ("every mark, into 195 bytes", [14, 0, 0]),
    ("every mark, into 0 bytes", [14, 0, 0]),
    ("every mark, into 197 bytes", [0, 0, 14]),
    ("every mark, into 199 bytes", [0, 0, 14]),
    ("every mark, into 225 bytes", [0, 0, 14]),
    ("n is 13 and R is 14", [0, 0, 13]),
    ("n is 5 and R is 14", [0, 0, 5]),
    ("n is 1 and R is 14", [0, 0, 1]),
    ("n is 0 and R is 14", [0, 0, 0]),
    ("n is 15 and R is 14", [4, 0, 0]),
    ("n is 1073741824 and R is 14", [4, 0, 0]),
    ("n is 4294967295 and R is 14", [4, 0, 0]),
    ("14 records, a word of the last missing", [4, 0, 0]),
    ("no record of no words into no bytes", [0, 0, 0]),
    ("one record of no words into no bytes", [4, 0, 0]),
    ("an unused field", [5, 1, 0]),
    ("equal types", [5, 2, 0]),
    ("a variable number of 4,096", [5, 1, 0]),
    ("a second use", [5, 3, 0]),
    ("a mixed list", [5, 3, 0]),
    ("a reference to itself", [5, 1, 0]),
    ("a second use past the records", [0, 0, 3]),
    ("tag 0", [5, 1, 0]),
    ("tag 11", [5, 1, 0]),
    ("tag 257", [5, 1, 0]),
    ("two broken records, a byte too few", [5, 1, 0]),
    ("n above the table, broken records, no bytes", [4, 0, 0]),
    ("fields of four different bytes", [0, 0, 5]),
    ("ill-typed", [0, 0, 11]),
    ("no pattern", [0, 0, 22]),
    ("solved, all records used", [0, 0, 34]),
    ("solved, one record past those used", [5, 34, 0]),
    ("2,048 records of 2,049", [0, 0, 2048]),
    ("2,049 records", [4, 0, 0]),
    ("2,049 records, the first broken, no bytes", [4, 0, 0]),
];

#[test]
fn tables_are_written_or_refused_as_their_names_say() {
    let list = write_replays();
    assert_eq!(list.len(), WRITTEN.len());
    for (table, (name, [answer, place, used])) in list.iter().zip(WRITTEN) {
        assert_eq!(table.name, format!("writes: {name}"));
        let (reply, words) = table.left(write);
        assert_eq!(reply, Reply { answer, place, used }, "{name}");
        assert_eq!(words == table.words, used == 0, "{name}");
        assert!(table.table.len() + table.words.len() <= 24_000, "{name}");
    }
}

#[test]
fn of_the_words_that_hold_a_file_the_bytes_past_it_stay() {
    let bytes = |words: &[u32]| -> Vec<u8> { words.iter().flat_map(|word| word.to_le_bytes()).collect() };
    let mut past = [0; 4];
    for table in write_replays() {
        assert_eq!(table.words.len(), table.bytes.div_ceil(4), "{}", table.name);
        let (reply, words) = table.left(write);
        let (before, after) = (bytes(&table.words), bytes(&words));
        let written = 14 * reply.used as usize;
        assert_eq!(before[written..], after[written..], "{}", table.name);
        let mut alone = before[..table.bytes].to_vec();
        assert_eq!(write(&table.table, table.n as usize, &mut alone), reply, "{}", table.name);
        assert_eq!(alone, after[..table.bytes], "{}", table.name);
        past[before.len() - table.bytes] += usize::from(reply.answer == 0);
    }
    assert!(past.iter().all(|&count| count >= 2), "{past:?}");
}

fn table_named(name: &str) -> WriteReplay {
    write_replays().into_iter().find(|table| table.name == format!("writes: {name}")).unwrap()
}

#[test]
fn ill_typed_tables_and_no_patterns_are_refused_by_solving_alone() {
    for (name, answer) in [("ill-typed", 6), ("no pattern", 7)] {
        let mut given = table_named(name);
        let n = given.n as usize;
        assert_eq!(solve(&mut given.table, n, &mut vec![0; n], &mut [0; 8]).answer, answer);
    }
}

#[test]
fn every_tag_is_written_and_the_long_tables_have_their_records() {
    let tags: BTreeSet<u32> =
        table_named("every mark, into 196 bytes").table.iter().step_by(4).copied().collect();
    assert_eq!(tags, (1..=10).collect());
    for name in ["2,048 records of 2,049", "2,049 records", "2,049 records, the first broken, no bytes"] {
        assert_eq!(table_named(name).table.len(), 4 * 2049, "{name}");
    }
    let legal = table_named("2,049 records").table;
    assert_eq!(check(&legal, 2049).answer, 0);
}

#[test]
fn the_self_check_finds_no_fault() {
    for r in problems() {
        let (n, hole, witness) = (r.n as usize, r.hole as usize, Vec::new());
        let Replay { name, table, solutions, queue, output, .. } = r;
        let problem = Problem { kind: Kind::Edge, table, n, solutions, queue, hole, output, witness };
        assert_eq!(check_problem(&problem, 100).faults, Vec::<String>::new(), "{name}");
    }
    for f in file_replays() {
        let problem = FileProblem { file: f.file, table: f.table };
        assert_eq!(file_faults(&problem).1, Vec::<String>::new(), "{}", f.name);
    }
    for t in write_replays() {
        let mut file: Vec<u8> = t.words.iter().flat_map(|word| word.to_le_bytes()).collect();
        file.truncate(t.bytes);
        let problem = WriteProblem { kind: WriteKind::Problem, table: t.table, n: t.n as usize, file };
        assert_eq!(check_write(&problem).faults, Vec::<String>::new(), "{}", t.name);
    }
}
