//! Measures the proved library beside the reference and beside a plain copy of
//! the bytes that a call touches. host/benchmark runs it.
//!
//!     bench count                   each call once, to be counted by valgrind
//!     bench repeat CALL FILL SLOTS TIMES
//!                                   one call of the library, to be sampled by perf; fills are full, many, bare
//!     bench agree                   each call in larger pools once, library and reference compared
//!     bench scale NUMBER            one run over larger pools: prints a line for each case
//!     bench write FOLDER ROUNDS MACHINE COUNTS PROFILE SCALE
//!                                   measures, and writes BENCHMARKS.md and benchmarks.svg

mod aims;
mod cases;
mod clock;
mod counts;
mod grown;
mod growth;
mod measure;
mod page;
mod plot;
mod scale;
mod stores;

use cases::{Call, Case};
use std::path::Path;
use std::{env, fs, process};
use stores::{Fill, Store, FILLS};

fn main() {
    let words: Vec<String> = env::args().skip(1).collect();
    let words: Vec<&str> = words.iter().map(String::as_str).collect();
    let done = match words[..] {
        ["count"] => count(),
        ["repeat", name, fill, slots, times] => repeat(name, fill, slots, times),
        ["agree"] => agree(),
        ["scale", run] => run.parse().map(scale::run).map_err(|_| "the run is no number".into()),
        ["write", folder, rounds, machine, counts, profile, runs] => {
            let texts =
                [counts, profile, runs].map(|name| fs::read_to_string(name).unwrap_or_default());
            write(folder, rounds, machine, &texts)
        }
        _ => Err("usage: bench count | bench repeat CALL FILL SLOTS TIMES | bench agree \
                  | bench scale NUMBER | bench write FOLDER ROUNDS MACHINE COUNTS PROFILE SCALE"
            .into()),
    };
    if let Err(why) = done {
        eprintln!("bench: {}", why);
        process::exit(1);
    }
}

/// Makes each call once on each side, inside `counted_call`, and prints a line
/// for each, in the same order.
fn count() -> Result<(), String> {
    let cases = cases::of_fill(Fill::Full);
    let mut sum = 0u64;
    for case in &cases {
        for (side, call) in [("proved", &case.proved), ("reference", &case.reference)] {
            let (mut store, mut output) = (case.before.clone(), vec![0; case.output]);
            sum = sum.wrapping_add(one_case(call, &mut store, &mut output));
            println!("{}\t{}\t{}\t{}", case.name, case.fill.word(), case.slots, side);
        }
    }
    eprintln!("sum {:x}", sum);
    Ok(())
}

/// One call of the library again and again, on a fresh copy each time.
fn repeat(name: &str, fill: &str, slots: &str, times: &str) -> Result<(), String> {
    let times: usize = times.parse().map_err(|_| "the number of times is no number")?;
    let fill = FILLS.into_iter().find(|other| other.word() == fill).ok_or("no such fill")?;
    let slots: usize = slots.parse().map_err(|_| "the number of slots is no number")?;
    let names = scale::names();
    let fits = |other: &&&str| **other == name && name != scale::NEXT;
    let case = &cases::case(names.iter().find(fits).ok_or("no such call")?, fill, slots);
    let (mut store, mut output) = (case.before.clone(), vec![0; case.output]);
    for _ in 0..times {
        store.refresh(&case.before);
        (case.proved)(&mut store, &mut output);
    }
    Ok(())
}

/// What valgrind writes a list of its own for.
#[inline(never)]
#[no_mangle]
pub fn one_case(call: &Call, store: &mut Store, output: &mut [u8]) -> u64 {
    counted_call(call, store, output).wrapping_add(1)
}

/// What it counts the instructions of.
#[inline(never)]
#[no_mangle]
pub fn counted_call(call: &Call, store: &mut Store, output: &mut [u8]) -> u64 {
    call(store, output)
}

/// Every call in larger pools, on both sides. The askings of a head are compared
/// in each run.
fn agree() -> Result<(), String> {
    for (fill, slots, name) in scale::cases().filter(|(_, _, name)| *name != scale::NEXT) {
        same_outcome(&cases::case(name, fill, slots))?;
    }
    Ok(())
}

/// Counts, profile and runs over larger pools come as texts.
fn write(folder: &str, rounds: &str, machine: &str, texts: &[String; 3]) -> Result<(), String> {
    let rounds: usize = rounds.parse().map_err(|_| "the number of rounds is no number")?;
    let [counts, profile, runs] = texts;
    let (counts, runs) = (counts::counts(counts), growth::runs(runs));
    let cases = cases::all();
    for case in &cases {
        same_outcome(case)?;
    }
    let times = measure::measure(&cases, rounds.max(1));
    let results: Vec<page::Result> =
        cases.iter().zip(times).map(|(case, times)| page::Result::new(case, times)).collect();
    let page = page::page(&results, machine, rounds.max(1), &counts, profile, &runs);
    let plot = plot::plot(&results, &runs, machine);
    put(&Path::new(folder).join("BENCHMARKS.md"), &page)?;
    put(&Path::new(folder).join("benchmarks.svg"), &plot)
}

fn put(path: &Path, text: &str) -> Result<(), String> {
    fs::write(path, text).map_err(|why| format!("{}: {}", path.display(), why))
}

/// Both sides have to do the same, or there is nothing to compare.
fn same_outcome(case: &Case) -> Result<(), String> {
    let run = |call: &Call| {
        let (mut store, mut output) = (case.before.clone(), vec![0; case.output]);
        let answer = call(&mut store, &mut output);
        (answer, store, output)
    };
    let (proved, reference) = (run(&case.proved), run(&case.reference));
    if proved != reference {
        return Err(format!("{} differs at {} slots", case.name, case.slots));
    }
    let succeeded = proved.0 == 0 || !case.changes || case.name == "create";
    if !succeeded || (case.changes && case.name != "wipe" && proved.1 == case.before) {
        return Err(format!("{} was refused at {} slots", case.name, case.slots));
    }
    Ok(())
}
