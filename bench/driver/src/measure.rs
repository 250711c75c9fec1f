//! Measures how long calls take.

use crate::pieces::Unit;
use crate::rest;
use std::hint::black_box;
use std::time::Duration;

/// A call that writes to an output, and returns the number of code units written.
pub type Call<'a, W> = Box<dyn Fn(&mut [W]) -> usize + 'a>;

/// The least time that a cell's calls are timed, for each time that they are made at least.
///
/// The best of a few short calls differs from run to run.
const LEAST_TIME: Duration = Duration::from_millis(10);

/// The most time that they are timed, once they were made twice. Some calls are a hundred times as slow as others.
const MOST_TIME: Duration = Duration::from_millis(300);

/// Returns the processor time of this thread, which leaves out what other programs use.
pub fn thread_time() -> Duration {
    #[repr(C)]
    struct Timespec {
        seconds: i64,
        nanoseconds: i64,
    }
    extern "C" {
        fn clock_gettime(clock: i32, time: *mut Timespec) -> i32;
    }
    const CLOCK_THREAD_CPUTIME_ID: i32 = 3;
    let mut time = Timespec { seconds: 0, nanoseconds: 0 };
    let answer = unsafe { clock_gettime(CLOCK_THREAD_CPUTIME_ID, &mut time) };
    assert_eq!(answer, 0, "the thread's clock");
    Duration::new(time.seconds as u64, time.nanoseconds as u32)
}

/// The most times that a call is timed, for each time that it is made at least.
///
/// A call that only checks tables takes too little time to reach `LEAST_TIME` soon.
const MOST_CALLS: usize = 40;

/// The wanted number of calls that begin and end while the core is at rest.
const RESTED: usize = 3;

/// The times of one call.
#[derive(Clone, Default)]
struct Times {
    least: Option<Duration>,
    all: Duration,
    count: usize,
    rested: usize,
}

impl Times {
    fn add(&mut self, time: Duration, was_at_rest: bool) {
        self.least = Some(self.least.map_or(time, |least| least.min(time)));
        self.all += time;
        self.count += 1;
        self.rested += usize::from(was_at_rest);
    }

    fn is_done(&self, times: usize) -> bool {
        if rest::is_skipped() {
            return self.count >= times;
        }
        let is_enough = self.rested >= RESTED && self.count >= times && self.all >= LEAST_TIME * times as u32;
        is_enough || self.count >= MOST_CALLS * times || (self.count >= 2 && self.all >= MOST_TIME)
    }
}

/// The most code units that are counted between two calls, which takes at most a millisecond.
const COUNTED: usize = 100_000;

/// Returns the best time of each call.
///
/// The calls are made in turn, there and back, each at least `times` times unless that takes too long. Some of them run
/// while the core is at rest: each call waits for that as long as `rest` allows. Before each call the letters at the
/// start of the source are counted, outside the measured time. So each call begins with caches and branch predictions
/// as other code leaves them. A call and the check that is part of it are neighbours in the list. So each runs in turn
/// after the other and after other code.
pub fn best_times<R: Unit, W>(calls: &[Option<Call<'_, W>>], src: &[R], dst: &mut [W], times: usize) -> Vec<Option<Duration>> {
    let mut all = vec![Times::default(); calls.len()];
    let front = &src[..src.len().min(COUNTED)];
    let mut order: Vec<usize> = (0..calls.len()).filter(|at| calls[*at].is_some()).collect();
    loop {
        let mut made = 0;
        for at in &order {
            let (Some(call), so_far) = (&calls[*at], &mut all[*at]) else { continue };
            if so_far.is_done(times) {
                continue;
            }
            let began_at_rest = rest::wait();
            black_box(R::letters(front));
            let start = thread_time();
            black_box(call(dst));
            let time = thread_time() - start;
            so_far.add(time, began_at_rest && rest::is_at_rest());
            made += 1;
        }
        if made == 0 {
            return all.into_iter().map(|times| times.least).collect();
        }
        order.reverse();
    }
}

/// Returns the time of a call less that of a check that is part of it.
pub fn without(time: Option<Duration>, check: Option<Duration>) -> Option<Duration> {
    Some(time?.saturating_sub(check?))
}

/// Returns megabytes a second.
pub fn speed(bytes: usize, time: Option<Duration>) -> Option<f64> {
    Some(bytes as f64 / time?.as_secs_f64() / 1e6)
}

/// Returns a cell with a speed, which is empty if there is none.
pub fn speed_cell(speed: Option<f64>) -> String {
    match speed {
        Some(speed) if speed < 10.0 => format!(" {speed:.1} |"),
        Some(speed) => format!(" {speed:.0} |"),
        None => " |".to_string(),
    }
}

/// Returns a cell with the ratio of one speed to another.
pub fn ratio_cell(speed: Option<f64>, other: Option<f64>) -> String {
    match (speed, other) {
        (Some(speed), Some(other)) => format!(" {:.2} |", speed / other),
        _ => " |".to_string(),
    }
}

/// Compares the output of a call with the wanted one.
pub fn is_same<W: Copy + PartialEq + Default>(wanted: &[W], call: &Call<'_, W>, dst: &mut [W]) -> Result<(), String> {
    dst.fill(W::default());
    let written = call(dst);
    if written != wanted.len() || dst[..written] != *wanted {
        let place = (0..wanted.len()).find(|at| dst[*at] != wanted[*at]);
        return Err(format!("{written} units, not {}; first difference at {place:?}", wanted.len()));
    }
    Ok(())
}

/// Returns the output of a call.
pub fn written<W: Copy + Default>(call: &Call<'_, W>, dst: &mut [W]) -> Vec<W> {
    let length = call(dst);
    dst[..length].to_vec()
}
