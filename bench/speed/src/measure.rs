//! Measuring: samples of all sizes and versions taken in turn, and their medians.

use std::hint::black_box;
use std::time::{Duration, Instant};

const ROUNDS: usize = 41;
const SAMPLE: Duration = Duration::from_micros(150);

/// Answer, place and used.
pub type Said = (u16, u16, u16);

/// What is lent to the three versions: the library, the plain version, and that without the checks of answers 5 to 7.
pub trait Measured: Clone + PartialEq {
    fn library(&mut self) -> Said;
    fn plain(&mut self) -> Said;
    fn machine_only(&mut self) -> Said;
}

/// What is measured of one problem.
pub const COLUMNS: usize = 6;
pub const LIBRARY: usize = 0;
pub const PLAIN: usize = 1;
pub const MACHINE_ALONE: usize = 2;
/// The library's time over the plain version's.
pub const RATIO: usize = 3;
/// The time over that of the middle problem: the library's, the plain version's.
pub const LIBRARY_GROWTH: usize = 4;
pub const PLAIN_GROWTH: usize = 5;

/// Problems, of which the second is the middle one: samples of each problem and version in turn, so that what else the
/// machine does meets all alike; medians, for ratios of the ratios of neighbours.
pub fn measure<P: Measured>(problems: &mut [P]) -> Vec<[f64; COLUMNS]> {
    let versions: [fn(&mut P) -> Said; 3] = [P::library, P::plain, P::machine_only];
    let runs: Vec<u32> = problems.iter_mut().map(runs_in_a_sample).collect();
    let mut samples = vec![[const { Vec::new() }; 3]; problems.len()];
    for round in 0..ROUNDS {
        for (which, problem) in problems.iter_mut().enumerate() {
            for turn in 0..3 {
                let version = (round + turn) % 3;
                let time = sample(versions[version], problem, runs[which]);
                samples[which][version].push(time);
            }
        }
    }
    let columns = |times: &[Vec<f64>; 3]| {
        let [library, plain, alone] = times.each_ref().map(|times| median(times.clone()));
        let ratio = over(&times[LIBRARY], &times[PLAIN]);
        let growth = [LIBRARY, PLAIN].map(|version| over(&times[version], &samples[1][version]));
        [library, plain, alone, ratio, growth[0], growth[1]]
    };
    samples.iter().map(columns).collect()
}

/// How many calls take about as long as a sample should.
fn runs_in_a_sample<P: Measured>(problem: &mut P) -> u32 {
    let mut runs = 1;
    while sample(P::plain, problem, runs) * f64::from(runs) < SAMPLE.as_nanos() as f64 && runs < 1 << 20 {
        runs *= 2;
    }
    runs
}

/// Nanoseconds for one call. The input records stand unchanged after each, so nothing is restored between two.
fn sample<P>(version: fn(&mut P) -> Said, problem: &mut P, runs: u32) -> f64 {
    black_box(version(problem));
    let start = Instant::now();
    for _ in 0..runs {
        black_box(version(black_box(problem)));
    }
    start.elapsed().as_nanos() as f64 / f64::from(runs)
}

fn over(numbers: &[f64], others: &[f64]) -> f64 {
    median(numbers.iter().zip(others).map(|(number, other)| number / other).collect())
}

pub fn median(mut numbers: Vec<f64>) -> f64 {
    numbers.sort_by(f64::total_cmp);
    numbers[numbers.len() / 2]
}
