//! How long a call takes: the median over turns that the programs take one after the other.

use std::hint::black_box;
use std::time::Duration;

use crate::foreign::run_time;

/// How often each program has its turn, and how long a turn takes.
pub const ROUNDS: usize = 201;
const TURN: Duration = Duration::from_millis(1);

/// So many calls of a program, which say whether each did what it should. The loop is part of each,
/// so that a call is not reached by way of a pointer, which would be timed too.
pub type Calls<'a> = Box<dyn FnMut(u32) -> bool + 'a>;

/// The calls of a program whose one call this is.
pub fn calls<'a>(mut call: impl FnMut() -> bool + 'a) -> Calls<'a> {
    Box::new(move |many| (0..many).all(|_| black_box(call())))
}

/// The median time of a call of each program in ns, or the place of one that did something else.
pub fn medians(mut programs: Vec<Calls>) -> Result<Vec<f64>, usize> {
    if let Some(place) = programs.iter_mut().position(|calls| !calls(1)) {
        return Err(place);
    }
    let often: Vec<u32> = programs.iter_mut().map(calls_in_a_turn).collect();
    let mut times = vec![Vec::new(); programs.len()];
    for _ in 0..ROUNDS {
        for (place, calls) in programs.iter_mut().enumerate() {
            let taken = time(calls, often[place]).as_nanos() as f64;
            times[place].push(taken / f64::from(often[place]));
        }
    }
    Ok(times.into_iter().map(median).collect())
}

fn median(mut times: Vec<f64>) -> f64 {
    times.sort_by(f64::total_cmp);
    times[times.len() / 2]
}

/// How many calls fill a turn; trying it out warms caches and branches.
fn calls_in_a_turn(calls: &mut Calls) -> u32 {
    let mut many = 1;
    while time(calls, many) < TURN {
        many *= 2;
    }
    many
}

/// How long so many calls take.
fn time(calls: &mut Calls, many: u32) -> Duration {
    let start = run_time();
    black_box(calls(many));
    run_time() - start
}
