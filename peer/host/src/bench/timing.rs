//! Nanoseconds a call: both sides in turn, and the least of many rounds for each.

use crate::sides::{Settable, Side};
use crate::workloads::{make, Workload};
use std::hint::black_box;
use std::time::{Duration, Instant};

const ROUNDS: usize = 40;
const ROUND: Duration = Duration::from_millis(10);

pub struct Times {
    pub library: f64,
    pub second: f64,
}

pub fn of(workload: &Workload) -> Times {
    let (mut library, mut second) = (Side::library(), Side::second());
    workload.set(&mut library);
    workload.set(&mut second);
    let mut times = Times {
        library: f64::INFINITY,
        second: f64::INFINITY,
    };
    for _ in 0..ROUNDS {
        times.library = times.library.min(round(workload, &mut library));
        times.second = times.second.min(round(workload, &mut second));
    }
    times
}

/// Whole passes over the calls of the workload, for some time.
fn round<A: Settable>(workload: &Workload, side: &mut Side<A>) -> f64 {
    let calls = workload.calls();
    let passes = 1 + 500 / calls.len();
    let (start, mut count) = (Instant::now(), 0);
    while start.elapsed() < ROUND {
        for _ in 0..passes {
            for call in &calls {
                black_box(make(side, call));
            }
        }
        count += passes * calls.len();
    }
    start.elapsed().as_nanos() as f64 / count as f64
}
