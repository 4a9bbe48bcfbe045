//! The clock.

use std::fs;
use std::hint::black_box;
use std::time::Instant;

/// Which clock is read.
#[derive(Clone, Copy, PartialEq)]
pub enum Clock {
    Processor,
    Wall,
}

impl Clock {
    /// The processor time where it is asked for and can be had.
    pub fn of(wall: bool) -> Clock {
        match processor_time() {
            Some(_) if !wall => Clock::Processor,
            _ => Clock::Wall,
        }
    }

    pub fn name(self) -> &'static str {
        match self {
            Clock::Processor => "processor time of the thread",
            Clock::Wall => "time that passes",
        }
    }

    /// What the call gives, and the seconds it took.
    pub fn time<T>(self, call: impl FnOnce() -> T) -> (T, f64) {
        match self {
            Clock::Processor => {
                let start = processor_time().expect("schedstat");
                let given = black_box(call());
                (given, processor_time().expect("schedstat") - start)
            }
            Clock::Wall => {
                let start = Instant::now();
                let given = black_box(call());
                (given, start.elapsed().as_secs_f64())
            }
        }
    }
}

/// Seconds that this thread has run. The system brings the number up to date when a thread yields.
fn processor_time() -> Option<f64> {
    std::thread::yield_now();
    let text = fs::read_to_string("/proc/thread-self/schedstat").ok()?;
    let ns: u64 = text.split(' ').next()?.parse().ok()?;
    (ns > 0).then_some(ns as f64 / 1e9)
}
