//! The command: runs by chance, a table of what was met, and a short run where
//! the two sides differ.
#![forbid(unsafe_code)]

use differential::campaign::{campaign, play_one, Origin};
use differential::large::SCENES;
use differential::options::{Options, USAGE};
use differential::reduce::reduce;
use differential::run::Finding;
use differential::tally::Tally;
use std::process::ExitCode;
use std::time::{Duration, Instant, SystemTime, UNIX_EPOCH};

/// How long a run is reduced.
const REDUCING: Duration = Duration::from_secs(20);
/// How many steps of a run are printed at most, the last ones.
const PRINTED: usize = 60;

fn main() -> ExitCode {
    let threads = std::thread::available_parallelism().map_or(1, usize::from);
    match Options::read(std::env::args().skip(1), seed_of_clock(), threads) {
        Ok(options) => compare(&options),
        Err(words) => {
            eprintln!("{words}\n\n{USAGE}");
            ExitCode::from(2)
        }
    }
}

fn seed_of_clock() -> u64 {
    let now = SystemTime::now().duration_since(UNIX_EPOCH);
    now.map_or(1, |now| now.as_millis() as u64)
}

fn compare(options: &Options) -> ExitCode {
    println!("seed {}, threads {}", options.seed, options.threads);
    let start = Instant::now();
    let (tally, found) = match options.run {
        None => campaign(options),
        Some(run) => {
            let mut tally = Tally::default();
            let outcome = play_one(options.seed, run, &mut tally);
            (tally, outcome.err().map(|finding| (Origin::Run(run), finding)))
        }
    };
    if let Some((origin, finding)) = found {
        print_finding(options.seed, origin, finding);
        return ExitCode::FAILURE;
    }
    if options.run.is_none() {
        tally.print();
    }
    let Tally { runs, scenes, calls, .. } = tally;
    let time = start.elapsed().as_secs_f64();
    println!("{scenes} scenes, {runs} runs, {calls} calls in {time:.1} s: no difference");
    judge(options, &tally)
}

/// Whether all was met that can be met, and nothing else.
fn judge(options: &Options, tally: &Tally) -> ExitCode {
    let is_whole = options.run.is_none() && !options.scenes_alone;
    let missing = if is_whole { tally.missing() } else { Vec::new() };
    missing.iter().for_each(|what| println!("NOT MET: {what}"));
    let unexpected = tally.unexpected();
    unexpected.iter().for_each(|what| println!("CANNOT BE: {what}"));
    match missing.is_empty() && unexpected.is_empty() {
        true => ExitCode::SUCCESS,
        false => ExitCode::FAILURE,
    }
}

fn print_finding(seed: u64, origin: Origin, finding: Finding) {
    match origin {
        Origin::Scene(scene) => {
            println!("FOUND in the scene of {}: {}", SCENES[scene].0, finding.words);
            println!("again with: --scenes");
        }
        Origin::Run(run) => {
            println!("FOUND in run {run}: {}", finding.words);
            println!("again with: --seed {seed} --run {run}");
        }
    }
    let steps = finding.steps.len();
    let short = reduce(finding, REDUCING);
    println!(
        "{steps} steps, reduced to {}, in a pool of {} slots:",
        short.steps.len(),
        short.slots
    );
    let skipped = short.steps.len().saturating_sub(PRINTED);
    if skipped > 0 {
        println!("  .. ({skipped} steps before)");
    }
    short.steps.iter().skip(skipped).for_each(|step| println!("  {step}"));
    println!("then: {}", short.words);
}
