//! Each bug that can be planted in the reference must be found, and reduced to
//! a short run.

use differential::bench::Bench;
use differential::campaign::play_one;
use differential::large::SCENES;
use differential::reduce::reduce;
use differential::run::Finding;
use differential::tally::Tally;
use reference::faults::{plant, Fault, ALL, OF_LARGE_POOLS};
use std::time::{Duration, Instant};

const SEED: u64 = 8;
/// Within so many calls a bug must be found; some seconds at the most.
const MOST_CALLS: u64 = 500_000;
/// A reduced run has at most so many steps.
const SHORT: usize = 40;

/// The first finding with this bug planted, and how many calls it took.
fn find(fault: Option<Fault>, most: u64) -> (Option<Finding>, u64) {
    plant(fault);
    let mut tally = Tally::default();
    let mut run = 0;
    let mut found = None;
    while found.is_none() && tally.calls < most {
        found = play_one(SEED, run, &mut tally).err();
        run += 1;
    }
    (found, tally.calls)
}

#[test]
fn every_planted_bug_is_found() {
    for fault in ALL {
        let start = Instant::now();
        let (found, calls) = find(Some(fault), MOST_CALLS);
        let finding = found.unwrap_or_else(|| panic!("{fault:?} was not found in {calls} calls"));
        let short = reduce(finding, Duration::from_secs(60));
        let (steps, time) = (short.steps.len(), start.elapsed().as_secs_f64());
        println!("{fault:?}: found in {calls} calls, {steps} steps, {time:.2} s: {}", short.words);
        short.steps.iter().for_each(|step| println!("    {step}"));
        assert!(steps <= SHORT, "{fault:?}: the reduced run has {steps} steps");
        plant(None);
        assert!(is_clean(&short), "{fault:?}: the short run shows something else");
    }
}

/// Whether the two sides agree on the run of a finding.
fn is_clean(finding: &Finding) -> bool {
    let mut bench = Bench::new(finding.slots);
    finding.steps.iter().all(|step| bench.step(step).is_ok())
}

/// The scene that finds a bug soon.
fn scene_for(fault: Fault) -> &'static str {
    match fault {
        Fault::OneSlotLess | Fault::OneSlotMore => "lengths of pools",
        Fault::HeadOfHeight3 => "a blob of 1,729 leaves",
        _ => "a blob of 1,728 leaves",
    }
}

#[test]
fn every_planted_bug_of_large_pools_is_found_in_its_scene() {
    for fault in OF_LARGE_POOLS {
        let scene = SCENES.iter().find(|(name, _)| *name == scene_for(fault)).expect("a scene");
        plant(Some(fault));
        let found = scene.1(&mut Tally::default());
        plant(None);
        let finding = found.expect_err("a bug was not found");
        println!("{fault:?}: found in the scene of {}: {}", scene.0, finding.words);
        assert!(finding.is_difference, "{fault:?}: {}", finding.words);
    }
}

#[test]
fn nothing_is_found_where_nothing_is_planted() {
    let (found, calls) = find(None, 20_000);
    assert!(found.is_none(), "{found:?}");
    assert!(calls >= 20_000);
}
