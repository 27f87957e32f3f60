//! Runs the deepest legal inputs through the linked library in threads of given stacks.

use families::build::{Build, A, F, Q};
use std::process::{Command, ExitCode};

const PROMISED_KB: usize = 8192;
const ROOM: usize = 4096;

/// With a number of kilobytes: runs all cases in such a stack. Without: finds the least stack, halving.
fn main() -> ExitCode {
    if let Some(kilobytes) = std::env::args().nth(1).and_then(|word| word.parse::<usize>().ok()) {
        let thread = std::thread::Builder::new().stack_size(kilobytes << 10).spawn(all_cases);
        return match thread.map(|thread| thread.join()) {
            Ok(Ok(())) => ExitCode::SUCCESS,
            _ => ExitCode::from(1),
        };
    }
    let runs_in = |kilobytes: usize| {
        let itself = std::env::current_exe().map(Command::new);
        itself.is_ok_and(|mut command| command.arg(kilobytes.to_string()).output().is_ok_and(|o| o.status.success()))
    };
    if !runs_in(PROMISED_KB) {
        println!("the deepest inputs do not run in {PROMISED_KB} KB of stack");
        return ExitCode::from(1);
    }
    let mut least = PROMISED_KB;
    while least > 64 && runs_in(least / 2) {
        least /= 2;
    }
    println!("the deepest inputs run in {PROMISED_KB} KB of stack; least power of two: {least} KB");
    ExitCode::SUCCESS
}

/// Each case: a problem, its answer, and a hole to show.
fn all_cases() {
    run("nested applications", nested_applications(), 1, None);
    run("nested applications, walked in a full table", nested_in_full_table(), 9, None);
    run("nested binders, walked in a full table", binders_in_full_table(), 9, None);
    run("nested lambdas", nested_lambdas(), 0, None);
    run("a deep solution, copied and shown", deep_copied(), 0, Some(9));
    run("a long chain of solved holes, walked and shown", chain(370, 1, true), 0, Some(9));
    run("a longer chain of solved holes, shown", chain(450, 1, false), 0, Some(10));
    run("a chain of deep solutions, walked and shown", chain(8, 80, true), 0, Some(9));
    run("a chain of deeper solutions, shown", chain(8, 120, false), 0, Some(10));
}

fn run(name: &str, build: Build, answer: u16, hole: Option<usize>) {
    let n = build.records.len();
    assert!(n <= ROOM, "{name}: {n} records");
    let mut table = build.records.concat();
    table.resize(4 * ROOM, 0);
    let (mut solutions, mut queue, mut output) = (vec![0; ROOM], vec![0; 2048], vec![0; 4 * ROOM]);
    let reply = tanczotka::solve(&mut table, n, &mut solutions, &mut queue);
    assert_eq!(reply.answer, answer, "{name}");
    if let Some(hole) = hole {
        let reply = tanczotka::show(&mut table, n, &mut solutions, &mut queue, hole, &mut output);
        assert_eq!(reply.answer, 0, "{name}");
    }
}

/// `f (f (.. a)) = a`: the typing goes down 2,000 levels.
fn nested_applications() -> Build {
    let mut build = Build::new();
    let inside = build.constant(A, &[]);
    let left = build.nest((ROOM - 12) / 2, inside);
    let right = build.constant(A, &[]);
    build.equation(0, left, right);
    build
}

/// `U[] = f (f (.. a))` in a full table: the walk goes to the end before it finds no room.
fn nested_in_full_table() -> Build {
    let mut build = Build::new();
    let hole = build.hole(0);
    let left = build.applied(hole, &[]);
    let inside = build.constant(A, &[]);
    let right = build.nest((ROOM - 13) / 2, inside);
    build.equation(0, left, right);
    full(build)
}

/// `U[] = q \x.q \y...` likewise.
fn binders_in_full_table() -> Build {
    let mut build = Build::new();
    let hole = build.hole(0);
    let left = build.applied(hole, &[]);
    let mut right = build.variable(0);
    for _ in 0..(ROOM - 13) / 3 {
        let function = build.lambdas(1, right);
        right = build.constant(Q, &[function]);
    }
    build.equation(0, left, right);
    full(build)
}

/// The problem with records that nothing refers to, until the table is full.
fn full(mut build: Build) -> Build {
    while build.records.len() < ROOM {
        build.constant(A, &[]);
    }
    build
}

/// As many lambdas on both sides as there are arrows for.
fn nested_lambdas() -> Build {
    let mut build = Build::new();
    let left = build.constant(A, &[]);
    let right = build.constant(A, &[]);
    build.equation((ROOM - 12) / 3, left, right);
    build
}

/// `U[] = f (f (.. a))`, then `U[] = f V[]`, which copies the solution.
fn deep_copied() -> Build {
    let mut build = Build::new();
    let (hole, other) = (build.hole(0), build.hole(0));
    let left = build.applied(hole, &[]);
    let inside = build.constant(A, &[]);
    let right = build.nest(500, inside);
    build.equation(0, left, right);
    let left = build.applied(hole, &[]);
    let inside = build.applied(other, &[]);
    let right = build.constant(F, &[inside]);
    build.equation(0, left, right);
    build
}

/// `U1[] = f (.. U2[])` and so on, the last is a; walked: then `W[] = U1[]` goes through all.
fn chain(links: usize, each: usize, walked: bool) -> Build {
    let mut build = Build::new();
    let last = build.hole(0);
    let holes: Vec<u32> = (0..links).map(|_| build.hole(0)).collect();
    for k in 0..links {
        let left = build.applied(holes[k], &[]);
        let inside = match holes.get(k + 1) {
            Some(&next) => build.applied(next, &[]),
            None => build.constant(A, &[]),
        };
        let right = build.nest(each, inside);
        build.equation(0, left, right);
    }
    if walked {
        let left = build.applied(last, &[]);
        let right = build.applied(holes[0], &[]);
        build.equation(0, left, right);
    }
    build
}
