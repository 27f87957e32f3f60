//! The semantic self-check: what an answer means, tested over trees, apart from the machine.

pub mod files;
pub mod filling;
pub mod general;
pub mod left;
pub mod legal;
pub mod limits;
pub mod reading;
pub mod refusal;
pub mod search;
pub mod shown;
pub mod solved;
pub mod typed;
pub mod writes;

use crate::generate::problem::Problem;
use crate::machine::show::show;
use crate::machine::solve::solve_and_tally;
use crate::machine::state::Tally;
use crate::reply::Reply;
use crate::words::*;
use filling::{unifies, Filling};
use reading::Reading;

/// What the self-check of one problem found.
#[derive(Debug, Default)]
pub struct Report {
    pub solve: u32,
    pub show: u32,
    pub faults: Vec<String>,
    pub tally: Tally,
    /// The search by brute force was made, and how many solutions it found.
    pub searched: Option<usize>,
    /// The generator's own terms solve the problem.
    pub witnessed: bool,
    pub reordered: bool,
}

/// Solves, shows and checks one problem; the search tries at most so many fillings.
pub fn check_problem(problem: &Problem, trials: usize) -> Report {
    let mut report = Report::default();
    let mut after = problem.clone();
    let (reply, tally) = solve_and_tally(&mut after.table, after.n, &mut after.solutions, &mut after.queue);
    report.solve = reply.answer;
    report.tally = tally;
    report.faults.extend(left::left_faults(problem, &after, reply, false));
    report.faults.extend(refusal_faults(problem, reply, None));
    let mut run = None;
    if reply.answer == 0 {
        let (faults, filling) = solved::solved_faults(problem, &after, reply);
        report.faults.extend(faults);
        run = filling;
    }
    check_shown(problem, &after, reply, run.as_ref(), &mut report);
    if [0, 1, 2, 3, 8, 9].contains(&reply.answer) {
        check_room_and_order(problem, reply, &mut report);
        check_solutions(problem, reply, run.as_ref(), trials, &mut report);
    }
    report
}

/// The refusals 4, 5, 10, 6, 7 must come exactly when they are expected.
fn refusal_faults(problem: &Problem, reply: Reply, hole: Option<usize>) -> Vec<String> {
    let expected = refusal::expected_refusal(&problem.table, problem.n, problem.solutions.len(), hole);
    let refused = [4, 5, 6, 7, 10].contains(&reply.answer);
    match expected {
        Some(expected) if expected != reply => vec![format!("{reply:?}, expected {expected:?}")],
        None if refused => vec![format!("{reply:?}, expected no refusal")],
        _ => Vec::new(),
    }
}

/// Show as asked, and show of every input hole with a large output.
fn check_shown(
    problem: &Problem,
    solved: &Problem,
    reply: Reply,
    run: Option<&Filling>,
    report: &mut Report,
) {
    report.show = check_show(problem, solved, reply, run, &mut report.faults);
    let Some(run) = run else { return };
    let mut other = problem.clone();
    for &hole in run.keys().filter(|&&hole| (hole as usize) < problem.n).take(6) {
        other.hole = hole as usize;
        other.output = vec![7; 4 * 600 + 1];
        check_show(&other, solved, reply, Some(run), &mut report.faults);
    }
}

/// One call of show against solve's reply and the filling; answers show's answer.
fn check_show(
    problem: &Problem,
    solved: &Problem,
    solving: Reply,
    run: Option<&Filling>,
    faults: &mut Vec<String>,
) -> u32 {
    let mut p = problem.clone();
    let reply = show(&mut p.table, p.n, &mut p.solutions, &mut p.queue, p.hole, &mut p.output);
    faults.extend(left::left_faults(problem, &p, reply, true));
    faults.extend(refusal_faults(problem, reply, Some(problem.hole)));
    if ![4, 5, 6, 7, 10].contains(&reply.answer) {
        let follows = reply.answer == solving.answer || (solving.answer == 0 && reply.answer == 11);
        if !follows || p.table != solved.table || p.solutions != solved.solutions || p.queue != solved.queue {
            faults.push(format!("show leaves other words than solve: {reply:?} after {solving:?}"));
        }
    }
    let Some(tree) = run.and_then(|run| run.get(&(problem.hole as u32))) else { return reply.answer };
    let words = shown::shown_words(tree);
    let room = (problem.output.len() / 4).min(4096);
    let fits = words.len() / 4 <= room;
    match reply.answer {
        0 if fits && p.output.starts_with(&words) && reply.used as usize == words.len() / 4 => {}
        11 if !fits && reply.used == 0 => {}
        4..=10 => {}
        _ => faults.push(format!("hole {} is shown wrongly: {reply:?}", problem.hole)),
    }
    reply.answer
}

/// More room, and the equations in another order.
fn check_room_and_order(problem: &Problem, reply: Reply, report: &mut Report) {
    let most = limits::roomy(&problem.table, problem.n);
    report.faults.extend(limits::limit_faults(problem, reply, most));
    if let Some(turned) = limits::reordered(problem) {
        report.reordered = true;
        report.faults.extend(limits::order_faults(most, limits::roomy(&turned, problem.n)));
    }
}

/// Solutions found without the machine: none after 1, 2, 3; instances of the answer after 0.
fn check_solutions(
    problem: &Problem,
    reply: Reply,
    run: Option<&Filling>,
    trials: usize,
    report: &mut Report,
) {
    let reading = Reading::new(&problem.table, problem.n);
    let mut solutions: Vec<Filling> = Vec::new();
    if problem.n == reading.count && !problem.witness.is_empty() {
        let witness: Filling = problem.witness.iter().cloned().collect();
        let whole = reading.tagged(HO).iter().all(|hole| witness.contains_key(hole));
        if whole && unifies(&witness, &reading.equations()) {
            report.witnessed = true;
            solutions.push(witness);
        }
    }
    if problem.n <= 90 {
        let found = search::unifiers(&reading, trials);
        report.searched = found.as_ref().map(Vec::len);
        solutions.extend(found.unwrap_or_default());
    }
    if (1..=3).contains(&reply.answer) && !solutions.is_empty() {
        report.faults.push(format!(
            "answer {} but there is a solution: {:?}",
            reply.answer,
            solutions.first()
        ));
    }
    if let Some(run) = run {
        if let Some(stray) = solutions.iter().find(|solution| !general::is_instance(run, solution)) {
            report.faults.push(format!("a solution is no instance of the answer: {stray:?}"));
        }
    }
}

/// One line that tells a problem from the others.
pub fn describe(problem: &Problem) -> String {
    let room = room(&problem.table);
    let pairs = pairs_room(&problem.queue);
    format!("kind {} n {} R {room} C {pairs} hole {}", problem.kind.letter(), problem.n, problem.hole)
}
