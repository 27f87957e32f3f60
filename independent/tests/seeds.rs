//! Generated problems through the self-check, and the generator itself.

use independent::commands::check_seeds::check_seeds;
use independent::commands::files::write_files;
use independent::commands::words::write_words;
use independent::generate::problem::Kind;
use independent::generate::{problem, Scale};
use independent::selfcheck::{check_problem, files::file_faults};
use independent::{check, solve};

#[test]
fn six_hundred_problems_have_no_fault() {
    for index in 0..400 {
        let report = check_problem(&problem(11, index, Scale::Usual), 60);
        assert_eq!(report.faults, Vec::<String>::new(), "seed 11, problem {index}");
    }
    for index in 0..200 {
        let report = check_problem(&problem(12, index, Scale::Small), 200);
        assert_eq!(report.faults, Vec::<String>::new(), "seed 12, problem {index}, small");
    }
}

#[test]
fn generated_files_are_read_as_they_should() {
    for index in 0..150 {
        let given = independent::generate::files::file_problem(3, index, Scale::Small);
        assert_eq!(file_faults(&given).1, Vec::<String>::new(), "file {index}");
    }
}

#[test]
fn every_answer_and_every_kind_is_met() {
    let mut answers = [0; 14];
    let mut kinds = [0; Kind::ALL.len()];
    for index in 0..3000 {
        let mut p = problem(4, index, Scale::Small);
        kinds[Kind::ALL.iter().position(|&kind| kind == p.kind).unwrap()] += 1;
        let reply = solve(&mut p.table, p.n, &mut p.solutions, &mut p.queue);
        answers[reply.answer as usize] += 1;
    }
    for answer in 0..10 {
        assert!(answers[answer] > 0, "answer {answer} never met: {answers:?}");
    }
    assert!(kinds.iter().all(|&count| count > 50), "{kinds:?}");
}

#[test]
fn equal_seeds_give_equal_problems_and_small_ones_are_small() {
    for index in 0..300 {
        let (one, two) = (problem(9, index, Scale::Small), problem(9, index, Scale::Small));
        assert_eq!((one.table.clone(), one.queue, one.hole), (two.table, two.queue, two.hole));
        assert!(one.table.len() < 4 * 90, "problem {index} has {} words", one.table.len());
    }
    assert_ne!(problem(1, 0, Scale::Usual).table, problem(2, 0, Scale::Usual).table);
}

#[test]
fn check_agrees_with_solve_on_refusals() {
    for index in 0..500 {
        let mut p = problem(21, index, Scale::Small);
        p.solutions.resize(p.solutions.len().max(p.table.len()), 0);
        let checked = check(&p.table, p.n);
        let solved = solve(&mut p.table, p.n, &mut p.solutions, &mut p.queue);
        if [4, 5, 6, 7].contains(&solved.answer) {
            assert_eq!(checked, solved, "problem {index}");
        } else {
            assert_eq!(checked.answer, 0, "problem {index}");
        }
    }
}

#[test]
fn the_line_formats_are_as_described() {
    let mut out = Vec::new();
    write_words(&mut out, 1, 3, Scale::Small).unwrap();
    let text = String::from_utf8(out).unwrap();
    let names: Vec<&str> = text.lines().take(17).map(|line| line.split(' ').next().unwrap()).collect();
    let expected = [
        "problem",
        "table",
        "n",
        "solutions",
        "queue",
        "hole",
        "output",
        "solve",
        "solve-table",
        "solve-solutions",
        "solve-queue",
        "show",
        "show-table",
        "show-solutions",
        "show-queue",
        "show-output",
        "end",
    ];
    assert_eq!(names, expected);
    assert_eq!(text.lines().count(), 51);
    let mut out = Vec::new();
    write_files(&mut out, 1, 2, Scale::Small).unwrap();
    assert_eq!(String::from_utf8(out).unwrap().lines().count(), 12);
}

#[test]
fn check_seeds_ends_with_its_count_of_faults() {
    let mut out = Vec::new();
    assert_eq!(check_seeds(&mut out, 5, 40, Scale::Small).unwrap(), 0);
    assert!(String::from_utf8(out).unwrap().ends_with("faults: 0\n"));
}
