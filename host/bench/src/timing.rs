//! Median times, and how far they swing.

use std::hint::black_box;
use std::time::{Duration, Instant};

/// How long each side runs before it is timed.
const WARM_UP: Duration = Duration::from_millis(100);
/// A time is taken of as many calls as last this long together, since a clock has its own cost.
const ONE_TIME: Duration = Duration::from_micros(50);
/// About how long each side is timed.
const TIMED: Duration = Duration::from_millis(500);
/// The rounds that a comparison is timed in. What else the machine does comes and goes, so the
/// ratios of the rounds tell how far to trust the middle one.
const ROUNDS: u32 = 5;
/// A round takes at least this many times of each side.
const LEAST_TIMES: usize = 3;

/// The times of a call in nanoseconds and their ratio: of all rounds the median.
pub struct Times {
    pub rattle: f64,
    pub rust: f64,
    pub ratio: f64,
    /// The lowest and the highest ratio of a round.
    pub spread: (f64, f64),
}

pub fn compare(
    buffer: &mut [u8],
    mut rattle: impl FnMut(&mut [u8]) -> u64,
    mut rust: impl FnMut(&mut [u8]) -> u64,
) -> Times {
    let rattle_calls = warmed_up(buffer, &mut rattle);
    let rust_calls = warmed_up(buffer, &mut rust);
    let (mut of_rattle, mut of_rust, mut ratios) = (Vec::new(), Vec::new(), Vec::new());
    for _ in 0..ROUNDS {
        let mut rattle_times = Vec::new();
        let mut rust_times = Vec::new();
        let started = Instant::now();
        // The sides take turns, so that what else the machine does falls on both.
        while started.elapsed() < 2 * TIMED / ROUNDS || rattle_times.len() < LEAST_TIMES {
            rattle_times.push(time(rattle_calls, buffer, &mut rattle));
            rust_times.push(time(rust_calls, buffer, &mut rust));
        }
        let round = (median(rattle_times), median(rust_times));
        of_rattle.push(round.0);
        of_rust.push(round.1);
        ratios.push(round.0 / round.1);
    }
    let lowest = ratios.iter().copied().fold(f64::INFINITY, f64::min);
    let highest = ratios.iter().copied().fold(0.0, f64::max);
    Times {
        rattle: median(of_rattle),
        rust: median(of_rust),
        ratio: median(ratios),
        spread: (lowest, highest),
    }
}

/// The median time of something that only one side does.
pub fn median_alone(buffer: &mut [u8], mut side: impl FnMut(&mut [u8]) -> u64) -> f64 {
    let calls = warmed_up(buffer, &mut side);
    let started = Instant::now();
    let mut times = Vec::new();
    while started.elapsed() < TIMED {
        times.push(time(calls, buffer, &mut side));
    }
    median(times)
}

/// Runs a side for a while and gives how many calls make one time.
fn warmed_up(buffer: &mut [u8], side: &mut impl FnMut(&mut [u8]) -> u64) -> u32 {
    let started = Instant::now();
    let mut calls = 0;
    while started.elapsed() < WARM_UP {
        black_box(side(buffer));
        calls += 1;
    }
    let one = started.elapsed().as_nanos() / calls;
    (ONE_TIME.as_nanos() / one.max(1)).max(1) as u32
}

/// The nanoseconds of one call, from a few in a row.
fn time(calls: u32, buffer: &mut [u8], side: &mut impl FnMut(&mut [u8]) -> u64) -> f64 {
    let started = Instant::now();
    for _ in 0..calls {
        black_box(side(buffer));
    }
    started.elapsed().as_nanos() as f64 / f64::from(calls)
}

fn median(mut times: Vec<f64>) -> f64 {
    times.sort_unstable_by(f64::total_cmp);
    times[times.len() / 2]
}
