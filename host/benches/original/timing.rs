//! The best of many rounds, both sides alternated.

use std::env;
use std::time::{Duration, Instant};

/// How often both sides are called: so many rounds of so many calls.
#[derive(Clone, Copy)]
pub struct Effort {
    pub rounds: u32,
    pub calls: u32,
}

/// ns per call.
pub struct Times {
    pub original: f64,
    pub port: f64,
}

impl Times {
    /// Alternates both sides, changing which is first, and takes the best rounds.
    pub fn best(effort: Effort, mut original: impl FnMut(), mut port: impl FnMut()) -> Self {
        let Effort { rounds, calls } = effort;
        let mut best = [Duration::MAX; 2];
        for round in 0..rounds {
            for side in [round % 2, 1 - round % 2] {
                let taken = match side {
                    0 => time(calls, &mut original),
                    _ => time(calls, &mut port),
                };
                let best = &mut best[side as usize];
                *best = taken.min(*best);
            }
        }
        let [original, port] = best.map(|best| best.as_nanos() as f64 / f64::from(calls));
        Self { original, port }
    }

    /// Over 1 where the port is faster.
    pub fn ratio(&self) -> f64 {
        self.original / self.port
    }
}

fn time(calls: u32, call: &mut impl FnMut()) -> Duration {
    let start = Instant::now();
    for _ in 0..calls {
        call();
    }
    start.elapsed()
}

/// Whether a job is to be timed. Cargo adds options, which name none.
pub fn wanted(job: &str) -> bool {
    let mut parts = env::args().skip(1).filter(|part| !part.starts_with("--"));
    parts.next().is_none_or(|part| job.contains(&part))
}
