//! Measures the linked library against the plain version: solving families that scale, and writing.

mod lent;
mod measure;
mod processes;
mod subjects;

use measure::*;
use std::process::ExitCode;
use subjects::Subject;

/// A row above this ratio is slow.
const MOST_RATIO: f64 = 1.25;
/// Cost per node grows where it grows more than the plain version's by more than a tenth.
const MOST_GROWTH: f64 = 1.1;

/// What the whole run gave.
#[derive(Default)]
struct Summary {
    rows: u32,
    slow: u32,
    growing: u32,
    worst: f64,
    logarithms: f64,
}

/// Measures the families whose name contains the word given, or all, writing among them.
fn main() -> ExitCode {
    let words: Vec<String> = std::env::args().skip(1).collect();
    let words: Vec<&str> = words.iter().map(String::as_str).collect();
    let outcome = match words[..] {
        [] => table(""),
        ["--process", number] => processes::in_this(number.parse().unwrap_or(usize::MAX)),
        [part] => table(part),
        _ => Err("usage: speed [PART]".to_string()),
    };
    if let Err(error) = outcome {
        eprintln!("{error}");
        return ExitCode::from(1);
    }
    ExitCode::SUCCESS
}

/// Prints a row for each family and size, and a summary.
fn table(part: &str) -> Result<(), String> {
    println!("| family | size | records | nodes | library ns | plain ns | ratio | plain machine alone ns | library ns per node | plain ns per node | growth of cost per node | |");
    println!("|---|---|---:|---:|---:|---:|---:|---:|---:|---:|---|---|");
    let mut summary = Summary::default();
    for (number, subject) in subjects::all().iter().enumerate() {
        if subject.name().contains(part) {
            one_subject(number, subject, &mut summary).map_err(|error| format!("{}: {error}", subject.name()))?;
        }
    }
    let mean = (summary.logarithms / f64::from(summary.rows.max(1))).exp();
    println!();
    println!(
        "{} rows; ratio: mean {mean:.2}, worst {:.2}; above {MOST_RATIO}: {}; cost per node growing: {}",
        summary.rows, summary.worst, summary.slow, summary.growing
    );
    Ok(())
}

fn one_subject(number: usize, subject: &Subject, summary: &mut Summary) -> Result<(), String> {
    let rows = subject.rows();
    let nodes: Vec<f64> = rows.iter().map(|row| subject.nodes(row) as f64).collect();
    let found = processes::in_several(number, rows.len())?;
    for (which, row) in found.into_iter().enumerate() {
        let growth = [LIBRARY_GROWTH, PLAIN_GROWTH].map(|column| row[column] * nodes[1] / nodes[which]);
        let slow = row[RATIO] > MOST_RATIO;
        let growing = which == 2 && growth[0] > MOST_GROWTH * growth[1];
        print!("| {} | {} | {} | {} ", subject.name(), rows[which].size, rows[which].records.len(), nodes[which]);
        print!("| {:.0} | {:.0} | {:.2} ", row[LIBRARY], row[PLAIN], row[RATIO]);
        print!("| {:.0} | {:.1} ", row[MACHINE_ALONE], row[LIBRARY] / nodes[which]);
        print!("| {:.1} | ", row[PLAIN] / nodes[which]);
        if which == 2 {
            print!("{:.2}, plain {:.2}", growth[0], growth[1]);
        }
        let flags = [(slow, "slow"), (growing, "grows")];
        let flags: Vec<&str> = flags.iter().filter(|flag| flag.0).map(|flag| flag.1).collect();
        println!(" | {} |", flags.join(", "));
        summary.rows += 1;
        summary.slow += u32::from(slow);
        summary.growing += u32::from(growing);
        summary.worst = summary.worst.max(row[RATIO]);
        summary.logarithms += row[RATIO].ln();
    }
    Ok(())
}
