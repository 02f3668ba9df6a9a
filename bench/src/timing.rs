//! Times of several contestants, who run in turn in one process.
use std::time::{Duration, Instant};

/// A contestant: what runs, and what it gives.
pub type Run<'a, T> = Box<dyn FnMut() -> T + 'a>;

/// How often each runs at least, and at most.
const LEAST: usize = 3;
const MOST: usize = 51;

/// For how long they all run, once each has run as often as it must.
const ENOUGH: Duration = Duration::from_millis(1000);

/// For how long they run at most; those that are left out then have run once at least.
const TOO_LONG: Duration = Duration::from_secs(40);

fn median(times: &mut [Duration]) -> Duration {
    times.sort();
    times[times.len() / 2]
}

/// The median time of each contestant, and what its last run gave. They take turns, so that what slows the machine slows all.
pub fn medians<T>(runs: &mut [Run<T>]) -> Vec<(Duration, T)> {
    let mut times = vec![Vec::new(); runs.len()];
    let mut gave: Vec<Option<T>> = runs.iter().map(|_| None).collect();
    let begin = Instant::now();
    for turn in 0..MOST {
        let spent = begin.elapsed();
        if turn >= LEAST && spent > ENOUGH || turn > 0 && spent > TOO_LONG {
            break;
        }
        for ((run, times), gave) in runs.iter_mut().zip(&mut times).zip(&mut gave) {
            let start = Instant::now();
            *gave = Some(run());
            times.push(start.elapsed());
        }
    }
    let both = times.iter_mut().zip(gave);
    both.map(|(times, gave)| (median(times), gave.expect("each has run")))
        .collect()
}
