//! Measuring in several processes: where code and words lie in memory differs from one to the next.

use crate::measure::{measure, median, Measured, COLUMNS};
use crate::subjects::{self, Row, Subject};
use std::process::Command;

const PROCESSES: usize = 7;

/// The medians over several processes for the subject of this number, which has so many rows.
pub fn in_several(number: usize, rows: usize) -> Result<Vec<[f64; COLUMNS]>, String> {
    let mut found: Vec<[Vec<f64>; COLUMNS]> = vec![Default::default(); rows];
    for _ in 0..PROCESSES {
        let itself = std::env::current_exe().map_err(|error| error.to_string())?;
        let ran = Command::new(itself).args(["--process", &number.to_string()]).output();
        let ran = ran.map_err(|error| error.to_string())?;
        if !ran.status.success() {
            return Err(String::from_utf8_lossy(&ran.stderr).into_owned());
        }
        let text = String::from_utf8_lossy(&ran.stdout).into_owned();
        let mut numbers = text.split_whitespace().filter_map(|word| word.parse::<f64>().ok());
        for column in found.iter_mut().flatten() {
            column.push(numbers.next().ok_or("a process printed too little")?);
        }
    }
    Ok(found.into_iter().map(|columns| columns.map(median)).collect())
}

/// One process: measures the subject of this number and prints what it found.
pub fn in_this(number: usize) -> Result<(), String> {
    let all = subjects::all();
    let subject = all.get(number).ok_or("no such family")?;
    let rows = subject.rows();
    match subject {
        Subject::Solving(family) => print(rows.iter().map(Row::lent).collect(), family.answer),
        Subject::Writing(_) => print(rows.iter().map(Row::written).collect(), 0),
    }
}

/// Measures these problems, which have this answer.
fn print<P: Measured>(mut problems: Vec<P>, answer: u16) -> Result<(), String> {
    for problem in &problems {
        agreement(problem, answer)?;
    }
    for row in measure(&mut problems) {
        println!("{}", row.map(|number| number.to_string()).join(" "));
    }
    Ok(())
}

/// All three versions leave the same and give the answer asked for.
fn agreement<P: Measured>(problem: &P, answer: u16) -> Result<(), String> {
    let mut sides = [problem.clone(), problem.clone(), problem.clone()];
    let replies = [sides[0].library(), sides[1].plain(), sides[2].machine_only()];
    if replies[0].0 != answer {
        return Err(format!("answer {} instead of {answer}", replies[0].0));
    }
    if replies[0] != replies[1] || replies[1] != replies[2] || sides[0] != sides[1] || sides[1] != sides[2] {
        return Err(format!("the versions differ: {replies:?}"));
    }
    Ok(())
}
