//! Deep nests, long chains, hostile words: an answer each time and never a panic.

mod common;
use common::*;
use independent::random::Random;
use independent::words::NONE;
use independent::{check, program, read, show, solve};

/// U[] = f (f (... a)): the solution fills the table exactly, or is one record short of room.
#[test]
fn a_solution_of_a_thousand_levels() {
    let levels = 1000;
    let mut text = format!("{PRELUDE}HO NONE 0\nHA 6 NONE\nCA 3 NONE\n");
    for level in 0..levels {
        let below = 8 + 2 * level;
        text.push_str(&format!("CE {below} NONE\nCA 4 {}\n", below + 1));
    }
    text.push_str(&format!("EQ 7 {} 0\n", 8 + 2 * levels));
    let n = 10 + 2 * levels;
    let mut lent = Lent::with_spare(&text, 1 + 2 * levels);
    assert_eq!(lent.n, n);
    assert_eq!(lent.solve(), reply(0, 0, (n + 1 + 2 * levels) as u32));
    assert_eq!(Lent::with_spare(&text, 2 * levels).solve(), reply(9, 0, 0));
    let printed = String::from_utf8(program(&file(&text)[..])).unwrap();
    assert!(printed.ends_with(&format!("c3{}\n", ")".repeat(levels))));
}

/// f (f (... a)) in so many records, from record number 3 on.
fn tower(records: &mut Vec<[u32; 4]>, levels: usize) -> u32 {
    records.push([7, 1, NONE, 0]);
    for _ in 0..levels {
        let below = records.len() as u32 - 1;
        records.push([5, below, NONE, 0]);
        records.push([7, 3, below + 1, 0]);
    }
    records.len() as u32 - 1
}

/// The deepest nests that 4,096 records hold: in one side, and in both.
#[test]
fn towers_of_four_thousand_and_ninety_six_records() {
    let start =
        vec![[1, 0, 0, 0], [3, 0, 0, 0], [2, 0, 0, 0], [3, 2, 0, 0], [4, NONE, 0, 0], [9, 4, NONE, 0]];
    let (mut solutions, mut queue) = (vec![0; 4096], vec![0; 2]);
    let mut one = start.clone();
    let top = tower(&mut one, 2044);
    one.push([10, 5, top, 0]);
    assert_eq!(one.len(), 4096);
    assert_eq!(solve(&mut table(&one), 4096, &mut solutions, &mut queue), reply(9, 0, 0));
    one[6] = [8, 0, NONE, 0];
    assert_eq!(solve(&mut table(&one), 4096, &mut solutions, &mut queue), reply(6, 4095, 0));
    one[6] = [9, 4, NONE, 0];
    assert_eq!(solve(&mut table(&one), 4096, &mut solutions, &mut queue), reply(3, 0, 0));
    let mut both = start;
    let (left, right) = (tower(&mut both, 1021), tower(&mut both, 1021));
    both.push([10, left, right, 0]);
    assert_eq!(
        solve(&mut table(&both), both.len(), &mut solutions, &mut queue),
        reply(0, 0, both.len() as u32)
    );
}

/// A thousand lambdas on both sides around the outermost variable.
#[test]
fn a_thousand_lambdas() {
    let depth = 1000;
    let mut records = vec![[1, 0, 0, 0]];
    for arrow in 0..depth {
        records.push([2, 0, arrow, 0]);
    }
    let mut sides = Vec::new();
    for _ in 0..2 {
        records.push([8, depth - 1, NONE, 0]);
        for _ in 0..depth {
            let body = records.len() as u32 - 1;
            records.push([6, body, 0, 0]);
        }
        sides.push(records.len() as u32 - 1);
    }
    records.push([10, sides[0], sides[1], depth]);
    let mut words = table(&records);
    let n = records.len();
    assert_eq!(solve(&mut words, n, &mut vec![0; n], &mut [0; 2]), reply(0, 0, n as u32));
    let outermost = 4 * (depth as usize + 1) + 1;
    words[outermost] = depth;
    assert_eq!(check(&words, n), reply(6, n as u32 - 1, 0));
}

/// U0 = U1, U1 = U2, ...: showing the first goes through all the others.
#[test]
fn a_chain_of_eight_hundred_solved_holes() {
    let links = 800u32;
    let mut records = vec![[1, 0, 0, 0]];
    records.extend((0..=links).map(|_| [4, NONE, 0, 0]));
    for link in 0..links {
        let next = records.len() as u32;
        records.push([9, 1 + link, NONE, 0]);
        records.push([9, 2 + link, NONE, 0]);
        records.push([10, next, next + 1, 0]);
    }
    let n = records.len();
    let mut words = table(&records);
    words.resize(4 * (n + links as usize), 7);
    let mut solutions = vec![0; n + links as usize];
    let mut output = [9; 8];
    let mut queue = vec![0; 1600];
    let reply_of_show = show(&mut words, n, &mut solutions, &mut queue, 1, &mut output);
    assert_eq!(reply_of_show, reply(0, 0, 1));
    assert_eq!(output, [9, 1 + links, NONE, 0, 0, 0, 0, 0]);
}

/// Each hole is two copies of the next, forty deep: a walk through them is table full at once.
#[test]
fn doubling_forty_times_ends_with_table_full() {
    let levels = 40u32;
    let mut records = vec![[1, 0, 0, 0], [2, 0, 0, 0], [2, 0, 1, 0], [3, 2, 0, 0], [3, 1, 0, 0]];
    let first = records.len() as u32;
    records.extend((0..levels + 2).map(|_| [4, NONE, 0, 0]));
    for level in 0..levels {
        let next = records.len() as u32;
        records.push([9, first + level, NONE, 0]);
        records.push([9, first + level + 1, NONE, 0]);
        records.push([9, first + level + 1, NONE, 0]);
        records.push([5, next + 2, NONE, 0]);
        records.push([5, next + 1, next + 3, 0]);
        records.push([7, 3, next + 4, 0]);
        records.push([10, next, next + 5, 0]);
    }
    let n = records.len();
    let mut words = table(&records);
    words.resize(4 * 4096, 0);
    let (mut solutions, mut queue) = (vec![0; 4096], vec![0; 2048]);
    assert_eq!(solve(&mut words, n, &mut solutions, &mut queue), reply(0, 0, n as u32 + 5 * levels));
    let mut output = vec![1; 4 * 4096];
    let shown = show(&mut words, n, &mut solutions, &mut queue, first as usize, &mut output);
    assert_eq!(shown, reply(11, 0, 0));
    let next = n as u32;
    let last = [
        [9, first + levels + 1, NONE, 0],
        [9, first, NONE, 0],
        [5, next + 1, NONE, 0],
        [7, 4, next + 2, 0],
        [10, next, next + 3, 0],
    ];
    records.extend(last);
    let mut words = table(&records);
    words.resize(4 * 4096, 0);
    assert_eq!(solve(&mut words, records.len(), &mut solutions, &mut queue), reply(9, 0, 0));
}

#[test]
fn hostile_sizes_are_refused() {
    let mut words = vec![0; 4 * 4097];
    let mut solutions = vec![0; 4096];
    for n in [4097, usize::MAX, usize::MAX / 4 + 1] {
        assert_eq!(solve(&mut words, n, &mut solutions, &mut []), reply(4, 0, 0));
        assert_eq!(check(&words, n), reply(4, 0, 0));
    }
    assert_eq!(solve(&mut words, 4096, &mut solutions, &mut []), reply(5, 0, 0));
    assert_eq!(solve(&mut words, 0, &mut solutions[..4095], &mut []), reply(4, 0, 0));
    assert_eq!(show(&mut words, 0, &mut solutions, &mut [], usize::MAX, &mut []), reply(10, 0, 0));
}

#[test]
fn random_words_and_bytes_always_get_an_answer() {
    let mut random = Random::new(5);
    for _ in 0..3000 {
        let count = random.below(120);
        let spread = random.pick(&[3, 12, 4100, usize::MAX]).unwrap();
        let mut words: Vec<u32> = (0..count).map(|_| random.below(spread) as u32).collect();
        let n = random.below(count / 4 + 2);
        let (mut solutions, mut queue) = (vec![3; random.below(40)], vec![4; random.below(9)]);
        let mut output = vec![5; random.below(30)];
        let hole = random.below(n + 2);
        let solved = solve(&mut words.clone(), n, &mut solutions.clone(), &mut queue.clone());
        let shown = show(&mut words, n, &mut solutions, &mut queue, hole, &mut output);
        assert!(solved.answer <= 9 && shown.answer <= 11);
        assert!(solved.answer == 0 || solved.used == 0);
        let bytes: Vec<u8> = words.iter().flat_map(|word| word.to_le_bytes()).collect();
        assert!([0, 4, 12, 13].contains(&read(&bytes, &mut words).answer));
        assert!(program(&bytes).ends_with(b"\n"));
    }
}
