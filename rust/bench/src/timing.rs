//! Times that can be compared on a machine that does other things too.

use std::time::{Duration, Instant};

pub const RUNS: usize = 11;

/// How long a run goes on at least: long enough to be timed, and short enough that what slows one slows the next too.
const LEAST: Duration = Duration::from_millis(50);

/// One run of something: the seconds that it took once.
pub type Run<'a> = Box<dyn FnMut() -> f64 + 'a>;

/// The median of each. They run by turns, so that whatever slows the machine meanwhile slows all of them.
pub fn by_turns(runs: &mut [Run]) -> Vec<f64> {
    let mut times = vec![Vec::new(); runs.len()];
    for _ in 0..RUNS {
        for (run, times) in runs.iter_mut().zip(&mut times) {
            times.push(run());
        }
    }
    times.into_iter().map(median).collect()
}

fn median(mut times: Vec<f64>) -> f64 {
    times.sort_by(f64::total_cmp);
    times[times.len() / 2]
}

/// Does something that is so many pieces, again and again until the run is long enough: the seconds of one piece.
/// What `prepare` does before each time isn't counted.
pub fn repeated<T>(
    pieces: usize,
    subject: &mut T,
    prepare: impl Fn(&mut T),
    work: impl Fn(&mut T),
) -> f64 {
    let (mut spent, mut done) = (Duration::ZERO, 0);
    while spent < LEAST {
        prepare(subject);
        let start = Instant::now();
        work(subject);
        spent += start.elapsed();
        done += pieces;
    }
    spent.as_secs_f64() / done as f64
}
