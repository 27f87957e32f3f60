//! The generator: whole problems of all kinds from a seed, the same for the same seed.

pub mod alter;
pub mod append;
pub mod bare;
pub mod crowd;
pub mod damage;
pub mod edges;
pub mod edit;
pub mod files;
pub mod grow;
pub mod lay;
pub mod long;
pub mod many_types;
pub mod noise;
pub mod problem;
pub mod repeat;
pub mod short;
pub mod sketch;
pub mod typed;
pub mod wide;
pub mod writes;

use crate::random::Random;
use crate::words::Record;
use problem::{Kind, Made, Problem, Sizes};
use sketch::Sketch;

/// How large problems may become.
#[derive(Clone, Copy, Debug, PartialEq, Eq)]
pub enum Scale {
    /// At most 40 input records and R at most 60, or little more.
    Small,
    Usual,
}

impl Scale {
    fn most_records(self) -> usize {
        match self {
            Scale::Small => 40,
            Scale::Usual => 260,
        }
    }
}

/// The problem of a seed and an index.
pub fn problem(seed: u64, index: u64, scale: Scale) -> Problem {
    let mut random = Random::of_pair(seed, index);
    let random = &mut random;
    let small = scale == Scale::Small;
    match random.below(130) {
        0..=44 => {
            let made = typed(random, scale, 0);
            usual_room(Kind::Typed, &made, random, scale)
        }
        45..=63 => {
            let made = damaged(random, scale);
            usual_room(Kind::Damaged, &made, random, scale)
        }
        64..=68 => {
            let made = noisy(random);
            usual_room(Kind::Words, &made, random, scale)
        }
        69..=78 => {
            let made = some_made(random, scale);
            edges::edge(&made, random, small)
        }
        79..=99 => {
            let made = typed(random, scale, 0);
            edges::tight(&made, random, small)
        }
        choice => aimed(random, scale, choice),
    }
}

/// Problems aimed at one rule each.
fn aimed(random: &mut Random, scale: Scale, choice: usize) -> Problem {
    let small = scale == Scale::Small;
    let (kind, made) = match choice {
        100..=104 => {
            let count = random.between(20, if small { 36 } else { 60 });
            (Kind::Types, unwitnessed(many_types::many_types(random, count)))
        }
        105..=108 => (Kind::Bare, changed(random, scale, small, bare::bare)),
        109..=112 => (Kind::Bare, changed(random, scale, false, short::shorten)),
        113..=122 => {
            let most = if small { 4 } else { 16 };
            let change = |sketch: &mut Sketch, random: &mut Random| {
                let width = if random.chance(30) { most } else { random.between(2, most) };
                repeat::repeat(sketch, random, width);
            };
            (Kind::Repeat, changed(random, scale, small, change))
        }
        123..=125 => return crowd::crowd(random, small),
        _ if small || random.chance(40) => (Kind::Lists, unwitnessed(wide::long_list(random))),
        _ => (Kind::Lists, unwitnessed(lay::lay(&wide::wide(random), random).records)),
    };
    usual_room(kind, &made, random, scale)
}

/// Records of any kind.
pub fn some_made(random: &mut Random, scale: Scale) -> Made {
    match random.below(10) {
        0 => damaged(random, scale),
        1 => noisy(random),
        _ => typed(random, scale, 0),
    }
}

/// A typed problem that is not too large; `loose` spoils patterns.
fn typed(random: &mut Random, scale: Scale, loose: usize) -> Made {
    let mut fuel = match scale {
        Scale::Small => random.between(1, 3),
        Scale::Usual => random.between(1, 6),
    };
    for _ in 0..8 {
        let sketch = typed::typed(random, fuel, loose);
        let made = lay::lay(&sketch, random);
        if made.records.len() <= scale.most_records() {
            return made;
        }
        fuel = fuel.saturating_sub(1).max(1);
    }
    Made::default()
}

fn damaged(random: &mut Random, scale: Scale) -> Made {
    if random.chance(25) {
        return typed(random, scale, 40);
    }
    let mut made = typed(random, scale, 0);
    damage::damage(&mut made.records, random);
    made.witness.clear();
    made
}

/// A typed problem that is changed before it is laid out; if `alone`, often only its heads stay.
fn changed(
    random: &mut Random,
    scale: Scale,
    alone: bool,
    change: impl Fn(&mut Sketch, &mut Random),
) -> Made {
    let mut fuel = if scale == Scale::Small { 1 } else { random.between(1, 4) };
    for _ in 0..12 {
        let mut sketch = typed::typed(random, fuel, 0);
        if alone && random.chance(70) {
            sketch.equations.clear();
            sketch.holes.clear();
        }
        change(&mut sketch, random);
        let made = lay::lay(&sketch, random);
        if made.records.len() <= scale.most_records() {
            return unwitnessed(made.records);
        }
        fuel = fuel.saturating_sub(1).max(1);
    }
    Made::default()
}

/// Records without terms that may solve them.
fn unwitnessed(records: Vec<Record>) -> Made {
    Made { records, witness: Vec::new() }
}

fn noisy(random: &mut Random) -> Made {
    let count = random.below(25);
    unwitnessed(noise::noise(random, count))
}

/// Slices in which the problem most often fits.
fn usual_room(kind: Kind, made: &Made, random: &mut Random, scale: Scale) -> Problem {
    let count = made.records.len();
    let room = match scale {
        Scale::Small => random.between(count, 60.max(count)),
        Scale::Usual if random.chance(85) => count + 150 + random.below(150),
        Scale::Usual => count + random.below(60),
    };
    let pairs = if random.chance(90) { random.between(12, 40) } else { random.below(8) };
    let output = match scale {
        Scale::Small => random.below(60),
        Scale::Usual if random.chance(70) => 60 + random.below(80),
        Scale::Usual => random.below(20),
    };
    let sizes = Sizes {
        table: 4 * room + random.below(4),
        solutions: room + random.below(3),
        queue: 2 * pairs + random.below(2),
        output: 4 * output + random.below(4),
    };
    Problem::of_made(kind, made, sizes, random)
}
