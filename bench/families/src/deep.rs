//! Families that go deep: nests, and chains of solutions.

use crate::build::*;

/// `f (f (.. a)) = f (f (.. a))`.
pub fn deep_equal(nodes: usize) -> Build {
    let depth = (nodes / 2).saturating_sub(1);
    let mut build = Build::new();
    let inside = build.constant(A, &[]);
    let left = build.nest(depth, inside);
    let inside = build.constant(A, &[]);
    let right = build.nest(depth, inside);
    build.equation(0, left, right);
    build
}

/// `\x.U[x] = \x.f (f (.. x))`.
pub fn deep_solution(nodes: usize) -> Build {
    let mut build = Build::new();
    let hole = build.hole(1);
    let left = build.applied(hole, &[0]);
    let inside = build.variable(0);
    let right = build.nest(nodes.saturating_sub(5), inside);
    build.equation(1, left, right);
    build
}

/// `U[] = q \x.q \y...`, each binder used in the innermost place or not at all.
pub fn deep_binders(nodes: usize) -> Build {
    let mut build = Build::new();
    let depth = (nodes / 2).saturating_sub(1).max(1);
    let hole = build.hole(0);
    let left = build.applied(hole, &[]);
    let mut right = build.variable(depth / 2);
    for _ in 0..depth {
        let function = build.lambdas(1, right);
        right = build.constant(Q, &[function]);
    }
    build.equation(0, left, right);
    build
}

/// `\x1..xk.U[xk] = \x1..xk.f xk`.
pub fn deep_lambdas(nodes: usize) -> Build {
    let mut build = Build::new();
    let hole = build.hole(1);
    let left = build.applied(hole, &[0]);
    let inside = build.variable(0);
    let right = build.constant(F, &[inside]);
    build.equation((nodes / 2).saturating_sub(2).max(1), left, right);
    build
}

/// `\x.U1[x] = \x.f U2[x]`, and so on down to x; with one more equation that meets U1.
fn chain_down(build: &mut Build, links: usize) -> u32 {
    let holes: Vec<u32> = (0..links).map(|_| build.hole(1)).collect();
    for k in 0..links {
        let left = build.applied(holes[k], &[0]);
        let inside = match holes.get(k + 1) {
            Some(&next) => build.applied(next, &[0]),
            None => build.variable(0),
        };
        let right = build.constant(F, &[inside]);
        build.equation(1, left, right);
    }
    holes[0]
}

/// A chain that a last equation `\x.W[x] = \x.U1[x]` walks to its end.
pub fn chain_walked(nodes: usize) -> Build {
    let mut build = Build::new();
    let last = build.hole(1);
    let first = chain_down(&mut build, (nodes / 7).max(1));
    let left = build.applied(last, &[0]);
    let right = build.applied(first, &[0]);
    build.equation(1, left, right);
    build
}

/// A chain that a last equation `\x.U1[x] = \x.f (f (.. x))` copies link by link.
pub fn chain_copied(nodes: usize) -> Build {
    let mut build = Build::new();
    let links = (nodes / 8).max(1);
    let first = chain_down(&mut build, links);
    let left = build.applied(first, &[0]);
    let inside = build.variable(0);
    let right = build.nest(links, inside);
    build.equation(1, left, right);
    build
}

/// `\x.Uk[x] = \x.f x`, then each hole before it is the one after: solutions met going up.
pub fn chain_up(nodes: usize) -> Build {
    let mut build = Build::new();
    let links = ((nodes + 2) / 6).max(1);
    let holes: Vec<u32> = (0..links).map(|_| build.hole(1)).collect();
    for k in (0..links).rev() {
        let left = build.applied(holes[k], &[0]);
        let right = match holes.get(k + 1) {
            Some(&next) => build.applied(next, &[0]),
            None => {
                let x = build.variable(0);
                build.constant(F, &[x])
            }
        };
        build.equation(1, left, right);
    }
    build
}

/// `U1[] = U2[]`, `U2[] = U3[]` and so on; the last equation `U1[] = a` copies down the whole chain.
pub fn chain_of_names(nodes: usize) -> Build {
    let mut build = Build::new();
    let links = (nodes / 2).max(2);
    let holes: Vec<u32> = (0..links).map(|_| build.hole(0)).collect();
    for pair in holes.windows(2) {
        let left = build.applied(pair[0], &[]);
        let right = build.applied(pair[1], &[]);
        build.equation(0, left, right);
    }
    let left = build.applied(holes[0], &[]);
    let right = build.constant(A, &[]);
    build.equation(0, left, right);
    build
}
