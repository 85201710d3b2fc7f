//! Times by stretches: the best time of each, so that a busy machine disturbs little.

use std::time::Duration;

/// How many calls stand between two looks at the clock: few enough that most stretches run undisturbed.
pub const STRETCH: usize = 1_000;

/// The best time of each stretch of calls.
#[derive(Default)]
pub struct Best(Vec<Duration>);

impl Best {
    /// Keeps the better time of each stretch.
    pub fn keep(&mut self, times: Vec<Duration>) {
        if self.0.is_empty() {
            self.0 = times;
        } else {
            self.0.iter_mut().zip(times).for_each(|(best, time)| *best = time.min(*best));
        }
    }

    /// Nanoseconds for each of so many calls.
    pub fn each(&self, calls: usize) -> f64 {
        self.0.iter().sum::<Duration>().as_nanos() as f64 / calls as f64
    }
}
