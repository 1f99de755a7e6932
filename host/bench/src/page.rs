//! The page: what was measured, the tables and the aims.

use crate::aims;
use crate::cases::{Case, NAMES};
use crate::counts::Counts;
use crate::grown;
use crate::growth::Runs;
use crate::measure::Times;
use crate::stores::{Fill, FILLS, SIZES};

/// What was measured of one case.
pub struct Result {
    pub name: &'static str,
    pub fill: Fill,
    pub slots: usize,
    pub touched: usize,
    pub times: Times,
}

impl Result {
    pub fn new(case: &Case, times: Times) -> Result {
        Result { name: case.name, fill: case.fill, slots: case.slots, touched: case.touched, times }
    }

    /// Library over reference.
    pub fn ratio(&self) -> f64 {
        self.times.proved / self.times.reference
    }

    /// Library over a copy of the bytes touched.
    pub fn copies(&self) -> f64 {
        self.times.proved / self.times.copy
    }

    /// Library over a copy of the bytes touched in the pool.
    pub fn pool_copies(&self) -> f64 {
        self.times.proved / self.times.copy_pool
    }

    pub fn per_slot(&self) -> f64 {
        self.times.proved / self.slots as f64
    }
}

/// What stands before the tables; the name of the machine and the number of
/// samples are put in.
const HEAD: &str = include_str!("../notes/head.md");

/// Why an aim is not met, and what would help.
const WHY: &str = include_str!("../notes/why.md");

/// The table of the library beside the one of before, which host/benchmark writes
/// if it is handed that one.
const COMPARED: &str = include_str!("../notes/compared.md");

pub fn page(
    results: &[Result],
    machine: &str,
    rounds: usize,
    counts: &Counts,
    profile: &str,
    runs: &Runs,
) -> String {
    let samples = (10 * rounds).to_string();
    let mut text = HEAD.replace("MACHINE", machine).replace("SAMPLES", &samples);
    text = text.replace("ROUNDS", &rounds.to_string());
    text += "\n## The aims\n\n";
    text += &aims::lines(results, runs);
    text += "\n";
    text += WHY;
    text += COMPARED;
    for fill in FILLS {
        text += &fill_tables(results, fill);
    }
    text += &grown::part(runs);
    text += &details(results, counts);
    text += &profile_part(profile);
    text
}

fn fill_tables(results: &[Result], fill: Fill) -> String {
    let ratio = table(results, fill, Result::ratio);
    let copies = table(results, fill, Result::copies);
    format!(
        "\n## {}\n\nTime of the library over the time of the reference:\n\n{}\n\
         Time of the library over the time of a copy of the bytes touched:\n\n{}",
        fill.title(),
        ratio,
        copies
    )
}

/// A row for each call, a column for each size.
fn table(results: &[Result], fill: Fill, number: impl Fn(&Result) -> f64) -> String {
    let mut text = String::from("| call |");
    SIZES.iter().for_each(|slots| text += &format!(" {} slots |", thousands(*slots as u64)));
    text += "\n|---|--:|--:|--:|--:|\n";
    for name in NAMES {
        text += &format!("| {} |", name);
        for slots in SIZES {
            text += &format!(" {} |", short(number(aims::find(results, name, fill, slots))));
        }
        text += "\n";
    }
    text
}

/// Times and instructions of every case of the full pool.
fn details(results: &[Result], counts: &Counts) -> String {
    let mut text = String::from(
        "\n## Times and instructions\n\nOne blob that fills the pool. Times in nanoseconds.\n\n\
         | call | slots | bytes touched | library | reference | copy | library, per slot \
         | instructions, library | instructions, reference |\n\
         |---|--:|--:|--:|--:|--:|--:|--:|--:|\n",
    );
    if counts.is_empty() {
        text = text.replace("Times in", "Instructions: not available on this machine. Times in");
    }
    for name in NAMES {
        for slots in SIZES {
            text += &detail(aims::find(results, name, Fill::Full, slots), counts);
        }
    }
    text
}

fn detail(result: &Result, counts: &Counts) -> String {
    let times = result.times;
    let count = counts.of(result.name, result.fill.word(), result.slots);
    let (library, reference) = match count {
        Some((library, reference)) => (thousands(library), thousands(reference)),
        None => ("-".into(), "-".into()),
    };
    format!(
        "| {} | {} | {} | {} | {} | {} | {} | {} | {} |\n",
        result.name,
        thousands(result.slots as u64),
        thousands(result.touched as u64),
        whole(times.proved),
        whole(times.reference),
        whole(times.copy),
        short(result.per_slot()),
        library,
        reference
    )
}

/// Which functions take the instructions; lines of call, share and function.
fn profile_part(profile: &str) -> String {
    if profile.is_empty() {
        return String::new();
    }
    let mut text = String::from(
        "\n## Where the library's instructions go\n\nAt 1,024 slots that one blob fills, by valgrind. \
         What the compiler has put into its caller counts with the caller.\n\n\
         | call | share | function |\n|---|--:|---|\n",
    );
    for line in profile.lines() {
        text += &format!("| {} |\n", line.replace('\t', " | "));
    }
    text
}

fn whole(number: f64) -> String {
    thousands(number.round() as u64)
}

/// Two digits after the point where they matter.
pub fn short(number: f64) -> String {
    if number < 20.0 {
        format!("{:.2}", number)
    } else {
        whole(number)
    }
}

/// With commas: 1,024.
pub fn thousands(number: u64) -> String {
    let digits = number.to_string();
    let mut text = String::new();
    for (at, digit) in digits.chars().enumerate() {
        if at > 0 && (digits.len() - at) % 3 == 0 {
            text.push(',');
        }
        text.push(digit);
    }
    text
}
