//! Times of many runs, the sides in turn.

use std::time::{Duration, Instant};

const RUNS: usize = 41;

/// As long lasts a run, about.
const RUN: Duration = Duration::from_millis(5);

/// Something to be timed; it has to keep its result from being optimised away.
pub type Work<'a> = Box<dyn FnMut() + 'a>;

fn timed(work: &mut Work<'_>, times: u32) -> Duration {
    let start = Instant::now();
    for _ in 0..times {
        work();
    }
    start.elapsed()
}

/// How often it has to be done for a run.
fn batch(work: &mut Work<'_>) -> u32 {
    let mut times = 1;
    while timed(work, times) < RUN {
        times *= 2;
    }
    times
}

fn median(mut numbers: Vec<f64>) -> f64 {
    numbers.sort_by(f64::total_cmp);
    numbers[numbers.len() / 2]
}

/// One side's microseconds in each run.
#[derive(Clone)]
pub struct Times(Vec<f64>);

impl Times {
    pub fn median(&self) -> f64 {
        median(self.0.clone())
    }

    fn with(&self, other: &Self, join: impl Fn(f64, f64) -> f64) -> Vec<f64> {
        let runs = self.0.iter().zip(&other.0);
        runs.map(|(&a, &b)| join(a, b)).collect()
    }

    /// The median of the runs' ratios: a machine that is slower for a while slows both sides.
    pub fn ratio(&self, other: &Self) -> f64 {
        median(self.with(other, |a, b| a / b))
    }

    pub fn less(&self, other: &Self) -> Self {
        Self(self.with(other, |a, b| a - b))
    }
}

/// Times all, in turns. Each run begins with another side.
pub fn times(mut works: Vec<Work<'_>>) -> Vec<Times> {
    let batches = Vec::from_iter(works.iter_mut().map(batch));
    let mut times = vec![Times(vec![]); works.len()];
    for run in 0..RUNS {
        for turn in 0..works.len() {
            let side = (run + turn) % works.len();
            let took = timed(&mut works[side], batches[side]);
            times[side]
                .0
                .push(took.as_secs_f64() * 1e6 / f64::from(batches[side]));
        }
    }
    times
}

pub fn describe() -> String {
    format!(
        "medians of {RUNS} runs of {} ms or more, in microseconds",
        RUN.as_millis()
    )
}
