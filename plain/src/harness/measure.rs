//! Times two or more functions over the same block, by turns and in both orders.

use std::hint::black_box;
use std::time::{Duration, Instant};

/// One way to run a call over a whole block; the result is a count or a sum.
pub type Side<B> = fn(&mut B) -> u64;

/// How long a measurement takes at least; where one run is short, it takes less than twice as long.
/// On a busy machine a short one is often not interrupted.
pub const LONG: Duration = Duration::from_micros(1400);
pub const SHORT: Duration = Duration::from_micros(200);

/// The nanoseconds that each side took for a packet, round by round.
pub struct Times(Vec<Vec<f64>>);

/// The first side decides how often all of them run in one measurement.
pub fn measure<B>(
    block: &mut B,
    packets: usize,
    rounds: usize,
    span: Duration,
    sides: &[Side<B>],
) -> Times {
    let repeats = repeats(block, sides[0], span);
    let runs = packets as f64 * f64::from(repeats);
    let mut times = vec![Vec::with_capacity(rounds); sides.len()];
    let measured = (0..rounds).flat_map(|round| one_round(block, repeats, sides, round));
    for (side, taken) in measured {
        times[side].push(taken.as_secs_f64() * 1e9 / runs);
    }
    Times(times)
}

/// Odd rounds run the sides in the other order.
fn one_round<B>(
    block: &mut B,
    repeats: u32,
    sides: &[Side<B>],
    round: usize,
) -> Vec<(usize, Duration)> {
    let mut order: Vec<usize> = (0..sides.len()).collect();
    if round % 2 == 1 {
        order.reverse();
    }
    let taken = |side: usize| (side, time(block, sides[side], repeats));
    order.into_iter().map(taken).collect()
}

/// How often a side is to run in one measurement.
fn repeats<B>(block: &mut B, side: Side<B>, span: Duration) -> u32 {
    let mut repeats = 1;
    while least_of_three(block, side, repeats) < span {
        repeats *= 2;
    }
    repeats
}

fn least_of_three<B>(block: &mut B, side: Side<B>, repeats: u32) -> Duration {
    let mut once = || time(block, side, repeats);
    once().min(once()).min(once())
}

fn time<B>(block: &mut B, side: Side<B>, repeats: u32) -> Duration {
    let start = Instant::now();
    for _ in 0..repeats {
        black_box(side(black_box(block)));
    }
    start.elapsed()
}

impl Times {
    pub fn median(&self, side: usize) -> f64 {
        percentile(self.0[side].clone(), 0.5)
    }

    /// A percentile of the ratios of one round each.
    fn ratio(&self, side: usize, to: usize, share: f64) -> f64 {
        let pairs = self.0[side].iter().zip(&self.0[to]);
        percentile(pairs.map(|(time, to)| time / to).collect(), share)
    }

    fn least(&self, side: usize) -> f64 {
        percentile(self.0[side].clone(), 0.0)
    }

    /// The smaller of the median of the rounds' ratios and the ratio of the least times: other work
    /// on the machine seldom raises both.
    pub fn steady_ratio(&self, side: usize, to: usize) -> f64 {
        let median = self.ratio(side, to, 0.5);
        median.min(self.least(side) / self.least(to))
    }

    /// The medians of both sides, that of the rounds' ratios, and the ratios' spread.
    pub fn compared(&self, side: usize, to: usize) -> [String; 5] {
        [
            self.median(side),
            self.median(to),
            self.ratio(side, to, 0.5),
            self.ratio(side, to, 0.1),
            self.ratio(side, to, 0.9),
        ]
        .map(|figure| format!("{figure:.2}"))
    }
}

fn percentile(mut figures: Vec<f64>, share: f64) -> f64 {
    figures.sort_by(f64::total_cmp);
    let last = (figures.len() - 1) as f64;
    figures[(last * share).round() as usize]
}
