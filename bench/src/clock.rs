//! Nanoseconds of a piece of work, less what the clock itself takes.

use std::time::Instant;

pub struct Clock {
    overhead: f64,
}

fn since(start: Instant) -> f64 {
    start.elapsed().as_nanos() as f64
}

/// The middle one of some samples. Few of them are hit when another process takes the processor.
pub fn median(samples: usize, sample: impl FnMut(usize) -> f64) -> f64 {
    let mut sorted: Vec<f64> = (0..samples).map(sample).collect();
    sorted.sort_by(f64::total_cmp);
    sorted[samples / 2]
}

impl Clock {
    pub fn new() -> Clock {
        Clock {
            overhead: median(10_000, |_| since(Instant::now())),
        }
    }

    pub fn time<R>(&self, work: impl FnOnce() -> R) -> (f64, R) {
        let start = Instant::now();
        let result = work();
        ((since(start) - self.overhead).max(0.0), result)
    }

    /// A call of a batch, on the mean.
    pub fn batch(&self, calls: usize, call: impl FnMut(usize)) -> f64 {
        self.time(|| (0..calls).for_each(call)).0 / calls as f64
    }
}
