//! A few larger calls: a queue and an output past the most that count, a longer table.

use super::room::{hole_of, Room};
use super::Replay;
use crate::stored::notation::written;
use crate::words::{MOST_PAIRS, MOST_RECORDS};

fn short(name: &str, room: Room) -> Replay {
    let problem = written("f:i>i; U[i]:i; \\U(v0) = \\f(v0) : i>i");
    room.lent(format!("large: {name}"), &problem, hole_of(&problem, "U"))
}

/// U is f, nine times, of a: the walk, the copy and the show all go ten levels down.
fn nested() -> Replay {
    let tower = format!("{}a{}", "f(".repeat(9), ")".repeat(9));
    let problem = written(&format!("a:i; f:i>i; U[]:i; U = {tower} : i; {tower} = U : i"));
    Room::of(38, 2, 19).lent("large: ten levels", &problem, hole_of(&problem, "U"))
}

/// Sixteen variables of which U keeps every other one.
fn wide() -> Replay {
    let list = |from: usize, by: usize| -> String {
        let names: Vec<String> = (from..16).step_by(by).map(|number| format!("v{number}")).collect();
        names.join(",")
    };
    let context = |count: usize| vec!["i"; count].join(",");
    let (lambdas, at) = ("\\".repeat(16), "i>".repeat(16));
    let text = format!(
        "U[{}]:i; V[{}]:i; {lambdas}U({}) = {lambdas}V({}) : {at}i",
        context(8),
        context(16),
        list(1, 2),
        list(0, 1)
    );
    let problem = written(&text);
    Room::of(43, 1, 18).lent("large: sixteen variables narrowed to eight", &problem, hole_of(&problem, "U"))
}

pub fn all() -> Vec<Replay> {
    let queue = Room { odd: [0, 0, 3, 0], ..Room::of(3, MOST_PAIRS, 4) };
    let output = Room { odd: [0, 0, 0, 5], ..Room::of(3, 1, MOST_RECORDS) };
    let n = 14;
    let table = Room { odd: [0, 5, 0, 0], ..Room::of(MOST_RECORDS + 1 - n, 1, 4) };
    vec![
        nested(),
        wide(),
        short("a queue past 1,024 pairs", queue),
        short("an output past 4,096 records", output),
        Replay { hole: 0, ..short("a table past 4,096 records, record 0 shown", table) },
    ]
}
