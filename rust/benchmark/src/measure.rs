//! Times of calls.

use std::time::{Duration, Instant};

/// The least time of one round.
pub const ROUND: Duration = Duration::from_millis(1);

/// Something to measure: makes a number of calls.
pub type Work<'a> = &'a mut dyn FnMut(u64);

/// The number of calls that fill a round.
fn calls_in_a_round(work: Work<'_>) -> u64 {
    let mut calls = 1;
    loop {
        let begun = Instant::now();
        work(calls);
        if begun.elapsed() >= ROUND {
            return calls;
        }
        calls *= 2;
    }
}

/// The median time of a call in nanoseconds, for each of the works, which take
/// turns in each round.
pub fn medians<const N: usize>(mut works: [Work<'_>; N], rounds: usize) -> [f64; N] {
    let calls = works.each_mut().map(|work| calls_in_a_round(*work));
    let mut times = [const { Vec::new() }; N];
    for _ in 0..rounds {
        for (i, work) in works.iter_mut().enumerate() {
            let begun = Instant::now();
            work(calls[i]);
            times[i].push(begun.elapsed().as_secs_f64() * 1e9 / calls[i] as f64);
        }
    }
    times.map(median)
}

/// The middle one of the times.
fn median(mut times: Vec<f64>) -> f64 {
    times.sort_by(f64::total_cmp);
    times[times.len() / 2]
}

#[cfg(test)]
mod tests {
    use super::*;

    #[test]
    fn middle() {
        assert_eq!(median(vec![3.0, 1.0, 2.0]), 2.0);
    }

    #[test]
    fn works_take_turns() {
        let mut work = |calls: u64| std::thread::sleep(Duration::from_micros(100) * calls as u32);
        let [time] = medians([&mut work], 3);
        assert!(time >= 100_000.0);
    }
}
