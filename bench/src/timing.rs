//! Times: the best of several repeats of each call, all calls of a row in turn, so that a slow moment of the machine
//! falls on all of them.

use std::time::{Duration, Instant};

/// How long a row is repeated.
#[derive(Clone, Copy)]
pub struct Effort {
    pub row: Duration,
}

/// Every call is repeated so often at least.
const LEAST: u32 = 3;

/// The best time of each call in microseconds. A call that has had its share of the row's time is not repeated again.
pub fn best(effort: Effort, calls: &mut [Box<dyn FnMut() + '_>]) -> Vec<f64> {
    let share = effort.row / calls.len() as u32;
    let mut bests = vec![Duration::MAX; calls.len()];
    let mut spent = vec![Duration::ZERO; calls.len()];
    let mut rounds = 0;
    while rounds < LEAST || spent.iter().any(|time| *time < share) {
        for ((call, best), spent) in calls.iter_mut().zip(&mut bests).zip(&mut spent) {
            if rounds >= LEAST && *spent >= share {
                continue;
            }
            let start = Instant::now();
            call();
            let time = start.elapsed();
            *best = time.min(*best);
            *spent += time;
        }
        rounds += 1;
    }
    bests.iter().map(|best| best.as_secs_f64() * 1e6).collect()
}
