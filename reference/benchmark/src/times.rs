//! Timing the two sides in turn.

use std::hint::black_box;
use std::time::{Duration, Instant};

/// Medians of the two sides.
pub struct Times {
    pub verified: Duration,
    pub reference: Duration,
}

impl Times {
    /// Runs both sides in turn, so that a busy machine slows both, and so often. Each side gets
    /// the turn's number, prepares its buffer and times the call alone.
    pub fn measure(
        turns: usize,
        mut verified: impl FnMut(usize) -> Duration,
        mut reference: impl FnMut(usize) -> Duration,
    ) -> Times {
        let mut times = [Vec::with_capacity(turns), Vec::with_capacity(turns)];
        for turn in 0..turns {
            times[0].push(verified(turn));
            times[1].push(reference(turn));
        }
        let [verified, reference] = times.map(median);
        Times {
            verified,
            reference,
        }
    }

    pub fn ratio(&self) -> f64 {
        over(self.verified, self.reference)
    }

    /// One line of the table. The numbers are the time of one of so many parts.
    pub fn print(&self, what: &str, unit: Unit, parts: usize) {
        println!(
            "| {what} | {} | {} | {:.2} |",
            unit.of(self.verified, parts),
            unit.of(self.reference, parts),
            self.ratio()
        );
    }
}

pub fn over(time: Duration, other: Duration) -> f64 {
    time.as_secs_f64() / other.as_secs_f64()
}

fn median(mut times: Vec<Duration>) -> Duration {
    times.sort();
    times[times.len() / 2]
}

/// The time of so many calls one after the other.
pub fn timed<T>(calls: usize, mut call: impl FnMut() -> T) -> Duration {
    let start = Instant::now();
    for _ in 0..calls {
        black_box(call());
    }
    start.elapsed()
}

/// The unit a row is shown in.
#[derive(Clone, Copy)]
pub enum Unit {
    Microseconds,
    Nanoseconds,
}

impl Unit {
    fn of(self, time: Duration, parts: usize) -> String {
        let nanoseconds = time.as_secs_f64() * 1e9 / parts as f64;
        match self {
            Unit::Microseconds => format!("{:.2} us", nanoseconds / 1e3),
            Unit::Nanoseconds => format!("{nanoseconds:.2} ns"),
        }
    }
}
