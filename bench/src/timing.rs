//! Times several contestants on the same work, in interleaved rounds of one run, so that what
//! else the machine does falls on all of them. Time is the processor's time for this thread, so
//! that waiting for a shared core doesn't count.

use std::ffi::{c_int, c_long};

#[repr(C)]
struct Timespec {
    seconds: i64,
    nanoseconds: c_long,
}

const THREAD_CPU_TIME: c_int = 3;

extern "C" {
    fn clock_gettime(clock: c_int, time: *mut Timespec) -> c_int;
}

const ROUNDS: usize = 31;
/// How many seconds one contestant's turn in a round takes, about.
const TURN: f64 = 0.003;

/// Seconds of each contestant in each round, for one pass over the work.
pub struct Times {
    rounds: Vec<Vec<f64>>,
}

/// Each contestant does one pass over the work when called.
pub fn time(contestants: &mut [&mut dyn FnMut()]) -> Times {
    let passes: Vec<u32> = contestants
        .iter_mut()
        .map(|contestant| passes(contestant))
        .collect();
    let mut round = || {
        let turns = contestants.iter_mut().zip(&passes);
        turns
            .map(|(contestant, &passes)| turn(contestant, passes))
            .collect()
    };
    Times {
        rounds: (0..ROUNDS).map(|_| round()).collect(),
    }
}

impl Times {
    /// The median over the rounds of one contestant's time by another's.
    pub fn ratio(&self, one: usize, other: usize) -> f64 {
        median(self.rounds.iter().map(|round| round[one] / round[other]))
    }

    /// The median of one contestant's seconds for a pass.
    pub fn seconds(&self, contestant: usize) -> f64 {
        median(self.rounds.iter().map(|round| round[contestant]))
    }
}

fn passes(contestant: &mut dyn FnMut()) -> u32 {
    turn(contestant, 1);
    let seconds = turn(contestant, 8);
    (TURN / seconds).clamp(1.0, 1e6) as u32
}

fn turn(contestant: &mut dyn FnMut(), passes: u32) -> f64 {
    let start = processor_seconds();
    for _ in 0..passes {
        contestant();
    }
    (processor_seconds() - start) / f64::from(passes)
}

fn processor_seconds() -> f64 {
    let mut time = Timespec {
        seconds: 0,
        nanoseconds: 0,
    };
    // SAFETY: the call writes the one structure it is given.
    let status = unsafe { clock_gettime(THREAD_CPU_TIME, &mut time) };
    assert_eq!(status, 0, "Linux keeps a clock for each thread");
    time.seconds as f64 + time.nanoseconds as f64 * 1e-9
}

fn median(values: impl Iterator<Item = f64>) -> f64 {
    let mut values: Vec<f64> = values.collect();
    values.sort_by(f64::total_cmp);
    values[values.len() / 2]
}

/// A ratio, to the two places printed, beside its goal.
pub fn against(ratio: f64, goal: f64) -> String {
    let printed = (ratio * 100.0).round() / 100.0;
    let word = if printed <= goal { "met" } else { "MISSED" };
    format!("{ratio:5.2} (goal {goal}: {word})")
}
