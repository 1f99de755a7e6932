//! The aims, and whether the measured times meet them.

use crate::cases::{NAMES, READ, READING, SCAN, SCAN_LEAVES};
use crate::growth::Runs;
use crate::page::{thousands, Result};
use crate::scale;
use crate::stores::{Fill, FILLS, SIZES};

/// The most of the reference's time that a reading call may take.
pub const READING_MOST: f64 = 1.0;
/// The same for a changing call.
pub const CHANGING_MOST: f64 = 0.8;
/// The most copies of its blocks that the read of a whole blob may take.
pub const COPIES_MOST: f64 = 3.0;
/// The most of that read's time that a scan in one asking may take.
pub const SCAN_MOST: f64 = 1.3;
/// The same for a scan in askings of 48 bytes.
pub const SCAN_LEAVES_MOST: f64 = 3.0;
/// The most by which the time per slot at 1,024 slots may exceed that at 64.
pub const GROWTH_MOST: f64 = 1.25;
/// The greatest exponent of time over slots in larger pools, where caches allow.
pub const EXPONENT_MOST: f64 = 1.05;

/// The result of a case.
pub fn find<'a>(results: &'a [Result], name: &str, fill: Fill, slots: usize) -> &'a Result {
    let fits =
        |result: &&Result| result.name == name && result.fill == fill && result.slots == slots;
    results.iter().find(fits).expect("every case is measured")
}

/// A line for each aim: what it is, and where it is not met.
pub fn lines(results: &[Result], runs: &Runs) -> String {
    let (reading, changing) = NAMES.split_at(READING);
    let mut text = String::from(
        "| aim | store | met? if not, where: value and number of slots |\n|---|---|---|\n",
    );
    for fill in FILLS {
        text += &ratio_line(results, &SIZES, fill, "reading calls", reading, READING_MOST);
        text += &ratio_line(results, &SIZES, fill, "changing calls", changing, CHANGING_MOST);
    }
    text += &read_lines(results, &SIZES);
    text += &growth_line(results);
    if runs.count() > 0 {
        text += &larger_lines(runs);
    }
    text
}

/// The same for larger pools, beside which changing calls of the reference are
/// not measured, and the exponents.
fn larger_lines(runs: &Runs) -> String {
    let (results, sizes) = (runs.results(), &scale::SIZES[2..]);
    let reading = &scale::names()[..scale::READING_NAMES];
    let mut text = String::new();
    for fill in FILLS {
        text += &exponent_line(runs, fill);
    }
    for fill in FILLS {
        text += &ratio_line(&results, sizes, fill, "reading calls", reading, READING_MOST);
    }
    text + &read_lines(&results, sizes)
}

/// Aims of a whole blob's read, and of scans beside it.
fn read_lines(results: &[Result], sizes: &[usize]) -> String {
    copies_line(results, sizes)
        + &scan_line(results, sizes, SCAN, "in one asking", SCAN_MOST)
        + &scan_line(results, sizes, SCAN_LEAVES, "in askings of 48 bytes", SCAN_LEAVES_MOST)
}

/// Where an aim is said for the second time.
fn place(sizes: &[usize]) -> &'static str {
    if sizes == SIZES {
        ""
    } else {
        "in larger pools "
    }
}

fn ratio_line(
    results: &[Result],
    sizes: &[usize],
    fill: Fill,
    what: &str,
    names: &[&str],
    most: f64,
) -> String {
    let mut missed = Vec::new();
    for name in names {
        let over = over(sizes, most, |slots| find(results, name, fill, slots).ratio());
        if !over.is_empty() {
            missed.push(format!("{}: {}", name, over.join(", ")));
        }
    }
    let place = place(sizes);
    let aim = format!("{}{} take at most {:.1} of the reference's time", place, what, most);
    row(&aim, fill, &missed)
}

/// Where a number is above the most, and what it is there.
fn over(sizes: &[usize], most: f64, number: impl Fn(usize) -> f64) -> Vec<String> {
    let numbers = sizes.iter().map(|slots| (*slots, number(*slots)));
    let above = numbers.filter(|(_, number)| *number > most);
    let told =
        |(slots, number)| format!("{} at {}", above_by(number, most), thousands(slots as u64));
    above.map(told).collect()
}

/// With as many digits as it takes to see that it is above.
fn above_by(number: f64, most: f64) -> String {
    format!("{:.*}", if number < most + 0.01 { 4 } else { 2 }, number)
}

fn copies_line(results: &[Result], sizes: &[usize]) -> String {
    let copies = |slots| find(results, READ, Fill::Full, slots).pool_copies();
    let place = place(sizes);
    row(
        &format!("{}a whole blob's read takes at most {} copies of its blocks", place, COPIES_MOST),
        Fill::Full,
        &over(sizes, COPIES_MOST, copies),
    )
}

fn scan_line(results: &[Result], sizes: &[usize], name: &str, how: &str, most: f64) -> String {
    let time = |name, slots| find(results, name, Fill::Full, slots).times.proved;
    let (place, whole) = (place(sizes), "of the time of a whole blob's read");
    row(
        &format!("{}a scan {} takes at most {} {}", place, how, most, whole),
        Fill::Full,
        &over(sizes, most, |slots| time(name, slots) / time(READ, slots)),
    )
}

fn growth_line(results: &[Result]) -> String {
    let mut missed = Vec::new();
    for name in NAMES {
        let growth = growth(results, name);
        if growth > GROWTH_MOST {
            missed.push(format!("{}: {:.2}", name, growth));
        }
    }
    row(
        &format!("time per slot at 1,024 slots is at most {} of that at 64", GROWTH_MOST),
        Fill::Full,
        &missed,
    )
}

/// The time per slot at 1,024 slots over that at 64.
pub fn growth(results: &[Result], name: &str) -> f64 {
    let at = |slots| find(results, name, Fill::Full, slots).per_slot();
    at(1024) / at(64)
}

/// Judged over all sizes; where it is missed, what it is in the second cache
/// stands beside it.
fn exponent_line(runs: &Runs, fill: Fill) -> String {
    let mut missed = Vec::new();
    for name in scale::names() {
        let [cached, all] = [3, 4].map(|sizes| runs.exponent(name, fill, sizes));
        if all.middle > EXPONENT_MOST {
            missed.push(format!(
                "{}: {:.3} ({:.3} to {:.3}), {:.3} up to 8,192",
                name, all.middle, all.least, all.most, cached.middle
            ));
        }
    }
    let what = "from 64 to 65,536 slots time grows by an exponent of at most";
    row(&format!("{} {}, where caches allow", what, EXPONENT_MOST), fill, &missed)
}

fn row(aim: &str, fill: Fill, missed: &[String]) -> String {
    let met = if missed.is_empty() { "yes".into() } else { format!("no: {}", missed.join("; ")) };
    format!("| {} | {} | {} |\n", aim, fill.title(), met)
}
