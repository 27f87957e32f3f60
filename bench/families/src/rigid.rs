//! Families of one large tree: equal, clashing at the end, walked with a failure at the end.

use crate::build::*;

/// Two equal trees, or two that differ in the last leaf.
fn trees(nodes: usize, last: u32) -> Build {
    let leaves = ((nodes + 2) / 4).max(2);
    let mut build = Build::new();
    let left = build.tree(0..leaves, &mut |b, _| b.constant(A, &[]));
    let right = build.tree(0..leaves, &mut |b, k| b.constant(if k + 1 == leaves { last } else { A }, &[]));
    build.equation(0, left, right);
    build
}

pub fn equal_trees(nodes: usize) -> Build {
    trees(nodes, A)
}

pub fn clash_last(nodes: usize) -> Build {
    trees(nodes, B)
}

/// `\x.U[x] = \x.tree` with x at every other leaf.
pub fn one_solution(nodes: usize) -> Build {
    let leaves = (nodes.saturating_sub(3) / 2).max(2);
    let mut build = Build::new();
    let hole = build.hole(1);
    let left = build.applied(hole, &[0]);
    let right = build.tree(0..leaves, &mut |b, k| if k % 2 == 0 { b.variable(0) } else { b.constant(A, &[]) });
    build.equation(1, left, right);
    build
}

/// `\x.U[] = \x.tree` with x at the last leaf alone.
pub fn escape_last(nodes: usize) -> Build {
    let leaves = (nodes.saturating_sub(2) / 2).max(2);
    let mut build = Build::new();
    let hole = build.hole(0);
    let left = build.applied(hole, &[]);
    let right =
        build.tree(0..leaves, &mut |b, k| if k + 1 == leaves { b.variable(0) } else { b.constant(A, &[]) });
    build.equation(1, left, right);
    build
}

/// `U[] = tree` with U at the last leaf alone.
pub fn occurs_last(nodes: usize) -> Build {
    let leaves = (nodes / 2).max(2);
    let mut build = Build::new();
    let hole = build.hole(0);
    let left = build.applied(hole, &[]);
    let right =
        build.tree(0..leaves, &mut |b, k| if k + 1 == leaves { b.applied(hole, &[]) } else { b.constant(A, &[]) });
    build.equation(0, left, right);
    build
}

/// `\x.tree of holes = \x.tree of f x`: a hole at each leaf.
pub fn hole_at_each_leaf(nodes: usize) -> Build {
    let leaves = (nodes / 6).max(2);
    let mut build = Build::new();
    let holes: Vec<u32> = (0..leaves).map(|_| build.hole(1)).collect();
    let left = build.tree(0..leaves, &mut |b, k| b.applied(holes[k], &[0]));
    let right = build.tree(0..leaves, &mut |b, _| {
        let x = b.variable(0);
        b.constant(F, &[x])
    });
    build.equation(1, left, right);
    build
}
