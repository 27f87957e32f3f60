//! Families of many equations between holes: permuted arguments, narrowing, the same hole twice.

use crate::build::*;

/// `\x1..xk.U[permuted] = \x1..xk.tree of all`, a new hole each.
pub fn permuted(nodes: usize) -> Build {
    let arity = if nodes < 40 { 2 } else { 4 };
    let mut build = Build::new();
    for number in 0..(nodes / (5 * arity)).max(1) {
        let order: Vec<usize> = (0..arity).map(|k| (arity - 1) - (k + number) % arity).collect();
        let hole = build.hole(arity);
        let left = build.applied(hole, &order);
        let right = build.tree(0..arity, &mut |b, k| b.variable(k));
        build.equation(arity, left, right);
    }
    build
}

/// `\xy.U[x] = \xy.f V[x,y]`, new holes each.
pub fn narrowing(nodes: usize) -> Build {
    let mut build = Build::new();
    for _ in 0..(nodes / 10).max(1) {
        let (narrow, wide) = (build.hole(1), build.hole(2));
        let left = build.applied(narrow, &[1]);
        let inside = build.applied(wide, &[1, 0]);
        let right = build.constant(F, &[inside]);
        build.equation(2, left, right);
    }
    build
}

/// `\xyz.U[x,y,z] = \xyz.U[x,z,y]`, a new hole each.
pub fn same_hole(nodes: usize) -> Build {
    let mut build = Build::new();
    for _ in 0..(nodes / 14).max(1) {
        let hole = build.hole(3);
        let left = build.applied(hole, &[2, 1, 0]);
        let right = build.applied(hole, &[2, 0, 1]);
        build.equation(3, left, right);
    }
    build
}

/// `\x1..xk.U[every other] = \x1..xk.V[x1..xk]`, each V narrowed to half its context, new holes each.
pub fn large_narrowing(nodes: usize) -> Build {
    let arity = if nodes < 40 { 2 } else { 16 };
    let each = 3 * arity + arity / 2 + 2;
    let mut build = Build::new();
    let half: Vec<usize> = (0..arity).step_by(2).collect();
    let all: Vec<usize> = (0..arity).collect();
    for _ in 0..((nodes + each / 2) / each).max(1) {
        let (solved, narrowed) = (build.hole(half.len()), build.hole(arity));
        let left = build.applied(solved, &half);
        let right = build.applied(narrowed, &all);
        build.equation(arity, left, right);
    }
    build
}
