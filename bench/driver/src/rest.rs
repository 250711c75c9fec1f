//! Checks whether the processor's core is at rest.
//!
//! On a shared host another guest may run on the same core. Then code that runs at four instructions in a cycle takes
//! up to twice as long, and code that waits for memory hardly longer. A ratio of the two would depend on that guest.

use crate::measure::thread_time;
use std::cell::RefCell;
use std::hint::black_box;
use std::thread::sleep;
use std::time::{Duration, Instant};

/// The greatest ratio of the time of the additions to their best time at which the core counts as at rest.
const REST: f64 = 1.1;

/// How long a call waits for rest, and how long all calls of a build do together for each time that a call is timed.
const PATIENCE_OF_CALL: Duration = Duration::from_millis(50);
const PATIENCE_OF_TIME: Duration = Duration::from_secs(12);

/// How long the core is watched before the first call, so that its best time is known.
const WATCHED: Duration = Duration::from_secs(2);

/// Times additions, each of which waits for the fourth one before it: a processor makes four of them in a cycle.
fn additions() -> Duration {
    let start = thread_time();
    let mut sums = [0u64; 4];
    for _ in 0..20_000 {
        let [a, b, c, d] = &mut sums;
        unsafe {
            std::arch::asm!(
                "add {a}, 1", "add {b}, 1", "add {c}, 1", "add {d}, 1",
                "add {a}, 1", "add {b}, 1", "add {c}, 1", "add {d}, 1",
                a = inout(reg) *a, b = inout(reg) *b, c = inout(reg) *c, d = inout(reg) *d,
                options(nomem, nostack),
            );
        }
    }
    black_box(sums);
    thread_time() - start
}

/// What is known of the core: the best time of the additions, the time spent waiting for rest, and the time that is allowed for it.
struct Core {
    least: Duration,
    waited: Duration,
    allowed: Duration,
    is_skipped: bool,
}

impl Core {
    /// Watches the core for a while.
    fn new() -> Core {
        let start = Instant::now();
        let mut least = Duration::MAX;
        while start.elapsed() < WATCHED {
            least = least.min(additions());
            sleep(Duration::from_millis(1));
        }
        Core { least, waited: Duration::ZERO, allowed: Duration::ZERO, is_skipped: false }
    }

    fn is_at_rest(&mut self) -> bool {
        let time = additions().min(additions());
        self.least = self.least.min(time);
        time.as_secs_f64() <= REST * self.least.as_secs_f64()
    }

    fn wait(&mut self) -> bool {
        let start = Instant::now();
        loop {
            let is_at_rest = self.is_at_rest();
            let waited = self.waited + start.elapsed();
            if is_at_rest || start.elapsed() >= PATIENCE_OF_CALL || waited >= self.allowed {
                self.waited = waited;
                return is_at_rest;
            }
            sleep(Duration::from_millis(1));
        }
    }
}

thread_local! {
    static CORE: RefCell<Core> = RefCell::new(Core::new());
}

/// Allows time to wait for rest, in proportion to how often each call is timed.
pub fn allow(times: usize) {
    CORE.with_borrow_mut(|core| core.allowed = PATIENCE_OF_TIME * times as u32);
}

/// Lets no call wait, as if the core were always at rest.
pub fn skip() {
    CORE.with_borrow_mut(|core| core.is_skipped = true);
}

/// Checks whether no call waits.
pub fn is_skipped() -> bool {
    CORE.with_borrow(|core| core.is_skipped)
}

/// Checks whether the core is at rest.
pub fn is_at_rest() -> bool {
    is_skipped() || CORE.with_borrow_mut(Core::is_at_rest)
}

/// Waits until the core is at rest or the allowed time is over, and returns whether it is at rest.
pub fn wait() -> bool {
    is_skipped() || CORE.with_borrow_mut(Core::wait)
}
