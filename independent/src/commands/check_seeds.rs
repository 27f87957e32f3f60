//! The command `check-seeds`: generated problems through the self-check, and a histogram.

use crate::generate::files::file_problem;
use crate::generate::problem::Kind;
use crate::generate::writes::{write_problem, WriteProblem};
use crate::generate::{problem, Scale};
use crate::selfcheck::files::file_faults;
use crate::selfcheck::writes::{check_write, written_back_faults, WriteReport};
use crate::selfcheck::{check_problem, describe, Report};
use crate::write::write;
use std::collections::BTreeMap;
use std::io::{self, Write};

/// How many fillings one search tries at most.
const TRIALS: usize = 700;
/// One file is checked for so many problems.
const PROBLEMS_PER_FILE: u64 = 10;
/// How many faults are described.
const MOST_DESCRIBED: usize = 10;

/// The answers that writing has.
const WRITE_ANSWERS: [u32; 4] = [0, 4, 5, 14];

/// The answers of one kind, counted.
type Histogram = BTreeMap<(char, &'static str), [u64; 14]>;

/// What all the problems together showed.
#[derive(Default)]
struct Sum {
    histogram: Histogram,
    writes: BTreeMap<char, [u64; WRITE_ANSWERS.len()]>,
    counts: BTreeMap<&'static str, u64>,
    faults: u64,
    described: Vec<String>,
}

impl Sum {
    fn count(&mut self, what: &'static str, happened: bool) {
        *self.counts.entry(what).or_default() += u64::from(happened);
    }

    fn answer(&mut self, kind: char, call: &'static str, answer: u32) {
        if let Some(slot) = self.histogram.entry((kind, call)).or_default().get_mut(answer as usize) {
            *slot += 1;
        }
    }

    fn faults(&mut self, name: String, faults: Vec<String>) {
        self.faults += faults.len() as u64;
        for fault in faults {
            if self.described.len() < MOST_DESCRIBED {
                self.described.push(format!("{name}: {fault}"));
            }
        }
    }

    fn report(&mut self, kind: Kind, report: &Report) {
        self.answer(kind.letter(), "solve", report.solve);
        self.answer(kind.letter(), "show", report.show);
        let solved = report.solve == 0;
        let failed = (1..=3).contains(&report.solve);
        let t = report.tally;
        self.count("solved", solved);
        self.count("solved with a copy written in step 1", solved && t.copies > 0);
        self.count("solved with narrowing in step 4", solved && t.narrowings > t.narrowings_in_walks);
        self.count("solved with narrowing in a walk", solved && t.narrowings_in_walks > 0);
        self.count("solved with a walk through a solved hole", solved && t.walked_solutions > 0);
        self.count("solved with a solved hole below a solved hole", solved && t.solved_below_solved > 0);
        self.count("solved with a solved hole whose map leads to a lambda", solved && t.lambda_places > 0);
        self.count("solved with a solved hole whose map is partial", solved && t.partial_maps > 0);
        self.count("solved, the generator's terms a solution", solved && report.witnessed);
        self.count("searched by brute force after 0", solved && report.searched.is_some());
        let found = report.searched.is_some_and(|count| count > 0);
        self.count("searched by brute force after 0, solutions found", solved && found);
        self.count("searched by brute force after 1, 2, 3", failed && report.searched.is_some());
        self.count("equations turned round", report.reordered);
    }

    fn write(&mut self, given: &WriteProblem, report: &WriteReport) {
        let counted = self.writes.entry(given.kind.letter()).or_default();
        let slots = counted.iter_mut().zip(WRITE_ANSWERS);
        slots.filter(|(_, answer)| *answer == report.answer).for_each(|(slot, _)| *slot += 1);
        let (written, solving) = (report.answer == 0, report.solving);
        self.count("write and solve both refuse with 5", report.answer == 5 && solving == 5);
        self.count("written, ill-typed", written && solving == 6);
        self.count("written, no pattern", written && solving == 7);
        self.count("written, clash, escape or occurs", written && (1..=3).contains(&solving));
        let used = report.solved;
        self.count("left by solving, at most 2,048 records, written", used.is_some_and(|used| used <= 2048));
        self.count("left by solving, above 2,048 records, refused", used.is_some_and(|used| used > 2048));
    }
}

/// Checks all problems; answers how many faults there were.
pub fn check_seeds(out: &mut dyn Write, seed: u64, count: u64, scale: Scale) -> io::Result<u64> {
    let mut sum = Sum::default();
    for index in 0..count {
        let given = problem(seed, index, scale);
        let report = check_problem(&given, TRIALS);
        sum.report(given.kind, &report);
        sum.faults(format!("problem {index} ({})", describe(&given)), report.faults);
        if index % PROBLEMS_PER_FILE == 0 {
            let given = file_problem(seed, index / PROBLEMS_PER_FILE, scale);
            let (answer, mut faults) = file_faults(&given);
            faults.extend(written_back_faults(write, &given.file));
            sum.answer('f', "read", answer);
            sum.faults(format!("file {}", index / PROBLEMS_PER_FILE), faults);
        }
        let given = write_problem(seed, index, scale);
        let report = check_write(&given);
        sum.write(&given, &report);
        sum.faults(format!("table {index} (kind {} n {})", given.kind.letter(), given.n), report.faults);
    }
    write_sum(out, &sum)?;
    Ok(sum.faults)
}

fn write_sum(out: &mut dyn Write, sum: &Sum) -> io::Result<()> {
    write!(out, "kind call ")?;
    (0..14).try_for_each(|answer| write!(out, "{answer:>7}"))?;
    writeln!(out)?;
    for ((kind, call), answers) in &sum.histogram {
        write!(out, "{kind}    {call:<5}")?;
        answers.iter().try_for_each(|count| write!(out, "{count:>7}"))?;
        writeln!(out)?;
    }
    write_writes(out, sum)?;
    for (what, count) in &sum.counts {
        writeln!(out, "{what}: {count}")?;
    }
    for fault in &sum.described {
        writeln!(out, "{fault}")?;
    }
    writeln!(out, "faults: {}", sum.faults)
}

/// The answers of writing, a line for each kind of table.
fn write_writes(out: &mut dyn Write, sum: &Sum) -> io::Result<()> {
    write!(out, "table call ")?;
    WRITE_ANSWERS.iter().try_for_each(|answer| write!(out, "{answer:>7}"))?;
    writeln!(out)?;
    for (kind, answers) in &sum.writes {
        write!(out, "{kind}     write")?;
        answers.iter().try_for_each(|count| write!(out, "{count:>7}"))?;
        writeln!(out)?;
    }
    Ok(())
}
