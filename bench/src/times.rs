//! Times of repeated runs, in seconds, and how they are printed.

use std::time::Instant;

#[derive(Default)]
pub struct Times(Vec<f64>);

impl Times {
    pub fn add(&mut self, seconds: f64) {
        self.0.push(seconds);
    }

    pub fn len(&self) -> usize {
        self.0.len()
    }

    pub fn shortest(&self) -> Option<f64> {
        self.0.iter().copied().reduce(f64::min)
    }

    pub fn median(&self) -> Option<f64> {
        let mut sorted = self.0.clone();
        sorted.sort_by(f64::total_cmp);
        sorted.get(sorted.len() / 2).copied()
    }
}

/// Runs the task and gives its value and its wall time.
pub fn timed<T>(task: impl FnOnce() -> T) -> (T, f64) {
    let start = Instant::now();
    let value = task();
    (value, start.elapsed().as_secs_f64())
}

/// Milliseconds with about three digits.
pub fn milliseconds(seconds: f64) -> String {
    digits(seconds * 1e3)
}

pub fn microseconds(seconds: f64) -> String {
    digits(seconds * 1e6)
}

pub fn digits(number: f64) -> String {
    let places = match number {
        n if n < 1.0 => 3,
        n if n < 10.0 => 2,
        n if n < 100.0 => 1,
        _ => 0,
    };
    format!("{number:.places$}")
}
