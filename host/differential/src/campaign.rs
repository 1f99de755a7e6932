//! The scenes and then many runs, over several threads, until enough was tried
//! or one finds something. The scenes are played whatever time they take.

use crate::chance::Chance;
use crate::history::{try_history, try_large_history};
use crate::large::SCENES;
use crate::options::Options;
use crate::run::{play, play_large, Finding};
use crate::tally::Tally;
use std::panic::{catch_unwind, AssertUnwindSafe};
use std::sync::atomic::{AtomicBool, AtomicU64, AtomicUsize, Ordering};
use std::sync::Mutex;
use std::thread;
use std::time::{Duration, Instant};

/// How long the first line of progress, and each later one, is waited for.
const PROGRESS: Duration = Duration::from_secs(10);

/// Where something was found.
#[derive(Clone, Copy, Debug, PartialEq, Eq)]
pub enum Origin {
    Scene(usize),
    Run(u64),
}

/// What the threads share.
struct Shared {
    next_scene: AtomicUsize,
    next_run: AtomicU64,
    stop: AtomicBool,
    met: Mutex<(Tally, Option<(Origin, Finding)>)>,
}

/// A run in so many is over a large pool, and a history in twice as many; their
/// share of the time is far larger.
const LARGE_EVERY: u64 = 25;

/// Plays a run of the seed: every fifth is a history for the third demand, every
/// fiftieth one over a large pool.
pub fn play_one(seed: u64, run: u64, tally: &mut Tally) -> Result<(), Finding> {
    let own_seed = Chance::new(seed ^ run.rotate_left(32)).number();
    match (run % LARGE_EVERY, run % (2 * LARGE_EVERY), run % 5) {
        (20, _, _) => play_large(own_seed, tally),
        (_, 35, _) => try_large_history(own_seed, tally),
        (_, _, 4) => try_history(own_seed, tally),
        _ => play(own_seed, tally),
    }
}

/// Plays a scene or a run of the seed.
pub fn play_origin(seed: u64, origin: Origin, tally: &mut Tally) -> Result<(), Finding> {
    match origin {
        Origin::Scene(scene) => SCENES[scene].1(tally).map(|()| tally.scenes += 1),
        Origin::Run(run) => play_one(seed, run, tally),
    }
}

/// Plays scenes and runs as asked; answers what was met, and where something was
/// found.
pub fn campaign(options: &Options) -> (Tally, Option<(Origin, Finding)>) {
    let shared = Shared {
        next_scene: AtomicUsize::new(0),
        next_run: AtomicU64::new(0),
        stop: AtomicBool::new(false),
        met: Mutex::new((Tally::default(), None)),
    };
    thread::scope(|scope| {
        for _ in 0..options.threads {
            scope.spawn(|| work(options, &shared));
        }
        watch(options, &shared);
    });
    shared.met.into_inner().expect("no thread panics while it holds the tally")
}

/// One thread: the scenes that are left, then run after run.
fn work(options: &Options, shared: &Shared) {
    while let Some(origin) = next_origin(options, shared) {
        let mut tally = Tally::default();
        let play = AssertUnwindSafe(|| play_origin(options.seed, origin, &mut tally));
        let outcome = catch_unwind(play).unwrap_or_else(|_| Err(Finding::of_panic()));
        let mut met = shared.met.lock().expect("no thread panics while it holds the tally");
        met.0.add(&tally);
        if let Err(finding) = outcome {
            met.1 = Some((origin, finding));
            shared.next_scene.store(SCENES.len(), Ordering::Relaxed);
            shared.stop.store(true, Ordering::Relaxed);
        }
    }
}

fn next_origin(options: &Options, shared: &Shared) -> Option<Origin> {
    let scene = shared.next_scene.fetch_add(1, Ordering::Relaxed);
    if scene < SCENES.len() {
        return Some(Origin::Scene(scene));
    }
    if options.scenes_alone {
        shared.stop.store(true, Ordering::Relaxed);
    }
    if shared.stop.load(Ordering::Relaxed) {
        return None;
    }
    Some(Origin::Run(shared.next_run.fetch_add(1, Ordering::Relaxed)))
}

/// Prints progress and says when it is enough.
fn watch(options: &Options, shared: &Shared) {
    let start = Instant::now();
    let mut told = start;
    while !shared.stop.load(Ordering::Relaxed) {
        thread::sleep(Duration::from_millis(50));
        let calls = shared.met.lock().map_or(0, |met| met.0.calls);
        let enough = match options.calls {
            Some(most) => calls >= most,
            None => start.elapsed() >= options.time,
        };
        if enough {
            shared.stop.store(true, Ordering::Relaxed);
        } else if told.elapsed() >= PROGRESS {
            told = Instant::now();
            let runs = shared.next_run.load(Ordering::Relaxed);
            println!("  {:>5} s: {runs} runs, {calls} calls", start.elapsed().as_secs());
        }
    }
}
