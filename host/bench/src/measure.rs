//! Times, in one run: library, reference and copy in turn, many times over.

use crate::cases::{Call, Case};
use crate::clock::Clock;
use crate::stores::Store;

/// Nanoseconds of one call, medians.
#[derive(Clone, Copy)]
pub struct Times {
    pub proved: f64,
    pub reference: f64,
    /// A plain copy of as many bytes as the call touches.
    pub copy: f64,
    /// A plain copy of as many bytes as it touches in the pool.
    pub copy_pool: f64,
}

/// About how many bytes of stores are worked on between two looks at the clock.
const BATCH_BYTES: usize = 32 * 1024;

/// How many samples follow one another on one case.
const IN_A_ROW: usize = 10;

/// One case with its copies of the store, and what was measured of it so far.
pub struct Trial<'a> {
    case: &'a Case,
    clock: Clock,
    /// What two looks at it take, which is not counted.
    empty: f64,
    stores: Vec<Store>,
    output: Vec<u8>,
    from: Vec<u8>,
    to: Vec<u8>,
    /// Takes up room, so that the others lie elsewhere from round to round.
    before: Vec<u8>,
    samples: [Vec<f64>; 4],
    sum: u64,
}

/// Measures every case, `rounds` times over the whole list.
pub fn measure(cases: &[Case], rounds: usize) -> Vec<Times> {
    let mut trials: Vec<Trial> = cases.iter().map(|case| Trial::new(case, Clock::Wall)).collect();
    for round in 0..rounds {
        for trial in &mut trials {
            trial.move_on(round);
            deeper(round % 16, &mut || trial.take(IN_A_ROW, round, true));
        }
        eprint!("\rround {} of {}", round + 1, rounds);
    }
    eprintln!(" (sum {:x})", trials.iter().fold(0u64, |sum, trial| sum.wrapping_add(trial.sum)));
    trials.iter_mut().map(Trial::times).collect()
}

/// Works this many calls deeper in the stack. Where things lie in memory makes
/// a call faster or slower, so stack and stores lie elsewhere in each round.
#[inline(never)]
pub fn deeper(levels: usize, work: &mut dyn FnMut()) {
    match levels {
        0 => work(),
        _ => deeper(levels - 1, &mut || work()),
    }
}

/// The value in the middle, if there is any.
pub fn median(samples: &mut [f64]) -> f64 {
    samples.sort_by(|a, b| a.total_cmp(b));
    samples.get(samples.len() / 2).copied().unwrap_or(f64::NAN)
}

impl Trial<'_> {
    pub fn new(case: &Case, clock: Clock) -> Trial<'_> {
        let size = case.before.pool.len() + case.before.records.len();
        let batch = (BATCH_BYTES / size).max(1);
        Trial {
            case,
            clock,
            empty: clock.empty(),
            stores: vec![case.before.clone(); batch],
            output: vec![0; case.output],
            from: vec![7; case.touched],
            to: vec![0; case.touched],
            before: Vec::new(),
            samples: [Vec::new(), Vec::new(), Vec::new(), Vec::new()],
            sum: 0,
        }
    }

    /// Lays stores and areas elsewhere: what is before them has another size.
    pub fn move_on(&mut self, round: usize) {
        let before = vec![1u8; 16 * ((round * 37) % 509)];
        self.stores = vec![self.case.before.clone(); self.stores.len()];
        self.output = vec![0; self.case.output];
        self.from = vec![7; self.case.touched];
        self.to = vec![0; self.case.touched];
        self.before = before;
    }

    /// So many samples of each kind in turn, or of each but the reference, after
    /// one that is not counted. Library and reference change places from round to
    /// round.
    pub fn take(&mut self, samples: usize, round: usize, with_reference: bool) {
        let case = self.case;
        for sample in 0..=samples {
            let mut kinds = [0, 1, 2, 3];
            if (round + sample) % 2 == 1 {
                kinds.swap(0, 1);
            }
            for kind in kinds.into_iter().filter(|kind| with_reference || *kind != 1) {
                let nanoseconds = match kind {
                    0 => self.call(&case.proved),
                    1 => self.call(&case.reference),
                    2 => self.copy(case.touched),
                    _ => self.copy(case.pool_bytes),
                };
                if sample > 0 {
                    let one = (nanoseconds - self.empty).max(0.0) / self.stores.len() as f64;
                    self.samples[kind].push(one);
                }
            }
        }
    }

    /// The call on each of the copies, which are made afresh before.
    fn call(&mut self, call: &Call) -> f64 {
        for store in &mut self.stores {
            store.refresh(&self.case.before);
        }
        self.clock.time(|| {
            for store in &mut self.stores {
                self.sum = self.sum.wrapping_add(call(store, &mut self.output));
            }
        })
    }

    /// A plain copy of so many bytes, as often as there are stores.
    fn copy(&mut self, bytes: usize) -> f64 {
        let time = self.clock.time(|| {
            for _ in 0..self.stores.len() {
                plain_copy(&mut self.to[..bytes], &self.from[..bytes]);
            }
        });
        self.sum = self.sum.wrapping_add(u64::from(self.to[bytes / 2]));
        time
    }

    /// The medians; none is a number where no sample was taken.
    pub fn times(&mut self) -> Times {
        let [proved, reference, copy, copy_pool] = &mut self.samples;
        Times {
            proved: median(proved),
            reference: median(reference),
            copy: median(copy),
            copy_pool: median(copy_pool),
        }
    }
}

/// memcpy, kept as a call of its own.
#[inline(never)]
pub fn plain_copy(to: &mut [u8], from: &[u8]) {
    to.copy_from_slice(from);
}
