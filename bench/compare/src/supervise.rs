//! Runs the comparison in a process of its own; if that dies, finds the problem on which it does.

use std::process::{Command, ExitCode, Stdio};

/// Compares all; exit status 1 on any difference or death.
pub fn all(seed: u64, count: u64) -> ExitCode {
    match part(seed, 0, count, false) {
        Some(0) => ExitCode::SUCCESS,
        Some(_) => ExitCode::from(1),
        None => {
            let index = death(seed, count);
            println!("the comparison died on the problem, file or tables of seed {seed} index {index}");
            ExitCode::from(1)
        }
    }
}

/// The lowest index on which the comparison dies, by halving.
fn death(seed: u64, count: u64) -> u64 {
    let (mut from, mut to) = (0, count);
    while to - from > 1 {
        let middle = from + (to - from) / 2;
        if part(seed, from, middle, true).is_none() {
            to = middle;
        } else {
            from = middle;
        }
    }
    from
}

/// The exit status of a process that compares these indices; None if it died.
fn part(seed: u64, from: u64, to: u64, quiet: bool) -> Option<i32> {
    let mut command = Command::new(std::env::current_exe().ok()?);
    command.args([seed, from, to].map(|number| number.to_string()));
    if quiet {
        command.stdout(Stdio::null()).stderr(Stdio::null());
    }
    command.status().ok()?.code()
}
