//! The two clocks: the wall's, and the processor's, which stands still while
//! another program has the processor.

use crate::measure::median;
use std::time::Instant;

#[derive(Clone, Copy)]
pub enum Clock {
    Wall,
    /// For what takes so long that it is often interrupted; a look at it takes
    /// longer than one at the wall's.
    Processor,
}

impl Clock {
    /// Nanoseconds that the work takes, with two looks at the clock.
    pub fn time(self, work: impl FnOnce()) -> f64 {
        match self {
            Clock::Wall => {
                let start = Instant::now();
                work();
                start.elapsed().as_nanos() as f64
            }
            Clock::Processor => {
                let start = processor_time();
                work();
                processor_time() - start
            }
        }
    }

    /// What two looks with nothing between them take, median.
    pub fn empty(self) -> f64 {
        let mut samples: Vec<f64> = (0..10_001).map(|_| self.time(|| ())).collect();
        median(&mut samples)
    }
}

/// Seconds and nanoseconds, as 64-bit Linux has them.
#[repr(C)]
struct Moment {
    seconds: i64,
    nanoseconds: i64,
}

extern "C" {
    fn clock_gettime(clock: i32, moment: *mut Moment) -> i32;
}

/// Linux's number for the time that this thread had a processor.
const CLOCK_THREAD_CPUTIME_ID: i32 = 3;

/// Nanoseconds that this thread had a processor so far.
fn processor_time() -> f64 {
    let mut moment = Moment { seconds: 0, nanoseconds: 0 };
    // The call writes one moment, into the one that is lent.
    let failed = unsafe { clock_gettime(CLOCK_THREAD_CPUTIME_ID, &mut moment) };
    assert_eq!(failed, 0, "the processor's clock cannot be read");
    moment.seconds as f64 * 1e9 + moment.nanoseconds as f64
}
