//! Processor time of this thread.

use crate::cases::Case;
use crate::side::{measured, Call, SIDES};
use std::hint::black_box;
use std::time::{Duration, Instant};

extern "C" {
    fn clock_gettime(clock: i32, at: *mut [i64; 2]) -> i32;
}

/// CLOCK_THREAD_CPUTIME_ID of Linux.
const THREAD_TIME: i32 = 3;

/// Microseconds of processor time of this thread.
fn now() -> f64 {
    let mut at = [0i64; 2];
    let answer = unsafe { clock_gettime(THREAD_TIME, &mut at) };
    assert_eq!(answer, 0, "there is no clock for a thread's time");
    at[0] as f64 * 1e6 + at[1] as f64 / 1e3
}

/// The best microseconds of a call on each side, by turns, of at least 5 rounds and up to 400 within a second.
pub fn best(call: Call, case: &Case) -> [f64; 3] {
    let before = call.before(case);
    let mut least = [f64::MAX; 3];
    let began = Instant::now();
    for round in 0..400 {
        if round >= 5 && began.elapsed() > Duration::from_secs(1) {
            break;
        }
        for (side, least) in SIDES.iter().zip(&mut least) {
            let mut watched = before.clone();
            let from = now();
            black_box(measured(side, call, black_box(case), &mut watched));
            *least = least.min(now() - from);
        }
    }
    least.map(|time| time / call.times(case) as f64)
}
