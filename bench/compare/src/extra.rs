//! Problems that the generator seldom makes: many types, terms that are not eta-long, more equations than pairs.

use families::build::*;
use independent::random::Random;

/// Records of one of the kinds below.
pub fn records(random: &mut Random) -> Vec<Record> {
    match random.below(4) {
        0 => many_types(random),
        1 | 2 => short_terms(random),
        _ => many_equations(random),
    }
}

/// Types of which two may be equal, late or early, and perhaps one record that breaks another rule.
fn many_types(random: &mut Random) -> Vec<Record> {
    let count = if random.chance(5) { random.between(300, 4096) } else { random.between(2, 80) };
    let mut records: Vec<Record> = vec![[1, 0, 0, 0]];
    while records.len() < count {
        let (one, other) = (random.below(records.len()) as u32, random.below(records.len()) as u32);
        let new = if random.chance(50) { [1, random.word(), 0, 0] } else { [2, one, other, 0] };
        if count > 300 || !records.contains(&new) {
            records.push(new);
        }
    }
    if random.chance(60) {
        let (from, to) = (random.below(count), random.below(count));
        records[from.max(to)] = records[from.min(to)];
    }
    if random.chance(20) {
        let at = random.below(count);
        records[at][3] = 1;
    }
    records
}

/// Equations, most under `\k` with k from i to i, whose sides and arguments may be bare heads of an arrow type.
fn short_terms(random: &mut Random) -> Vec<Record> {
    let mut build = Build::new();
    let context = build.push([5, I_I, NONE, 0]);
    let hole = build.push([4, context, I, 0]);
    for _ in 0..random.between(1, 3) {
        if random.chance(25) {
            let sides = [(); 2].map(|()| function(&mut build, random, false));
            build.push([10, sides[0], sides[1], I_I]);
            continue;
        }
        let sides = [(); 2].map(|()| {
            let head = if random.chance(60) { [7, Q] } else { [9, hole] };
            let bare = head[0] == 9 && random.chance(80);
            let argument = if bare { build.variable(0) } else { function(&mut build, random, true) };
            let list = build.push([5, argument, NONE, 0]);
            let body = build.push([head[0], head[1], list, 0]);
            build.lambdas(1, body)
        });
        build.push([10, sides[0], sides[1], II_I]);
    }
    build.records
}

/// A term of type i to i, perhaps with k as variable 0, or now and then one that looks like it.
fn function(build: &mut Build, random: &mut Random, under_k: bool) -> u32 {
    match random.below(16) {
        0 => build.constant(F, &[]),
        1 => build.variable(random.below(2)),
        2..=4 => {
            let body = build.variable(0);
            build.lambdas(1, body)
        }
        5..=9 if under_k => {
            let argument = build.variable(0);
            let list = build.push([5, argument, NONE, 0]);
            let body = build.push([8, 1, list, 0]);
            build.lambdas(1, body)
        }
        _ => {
            let argument = build.variable(0);
            let body = build.constant(F, &[argument]);
            build.lambdas(1, body)
        }
    }
}

/// About as many equations as pairs may wait at most.
fn many_equations(random: &mut Random) -> Vec<Record> {
    let mut build = Build::new();
    for _ in 0..random.between(1020, 1028) {
        let left = build.constant(A, &[]);
        let right = build.constant(if random.below(3000) == 0 { B } else { A }, &[]);
        build.equation(0, left, right);
    }
    build.records
}
