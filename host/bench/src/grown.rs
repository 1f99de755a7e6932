//! The part of the page on larger pools.

use crate::growth::{Runs, Spread};
use crate::measure::Times;
use crate::page::{short, thousands};
use crate::scale::{names, READING_NAMES, SIZES};
use crate::stores::{Fill, FILLS};

/// What is said before the tables; the number of runs is put in.
const NOTES: &str = include_str!("../notes/scale.md");

/// Nothing if there was no run.
pub fn part(runs: &Runs) -> String {
    if runs.count() == 0 {
        return String::new();
    }
    let mut text = format!("\n{}", NOTES.replace("RUNS", &runs.count().to_string()));
    for fill in FILLS {
        text += &format!("\n### {}\n\nMicroseconds, and exponents:\n\n", fill.title());
        text += &times(runs, fill);
        text += "\nTime of the library over that of the reference; over that of a copy of the bytes touched:\n\n";
        text += &ratios(runs, fill);
    }
    text
}

fn times(runs: &Runs, fill: Fill) -> String {
    let mut text = head(&["64 to 8,192", "64 to 65,536"]);
    for name in names() {
        let time = |slots| runs.spread(name, fill, slots, |times| times.proved / 1000.0);
        let exponents = [3, 4].map(|sizes| runs.exponent(name, fill, sizes));
        let times = SIZES.map(|slots| ranged(time(slots), digits));
        let exponents = exponents.map(|exponent| ranged(exponent, hundredths));
        text += &format!("| {} | {} | {} |\n", name, times.join(" | "), exponents.join(" | "));
    }
    text
}

/// Reading calls only: the reference is not measured beside the others.
fn ratios(runs: &Runs, fill: Fill) -> String {
    let mut text = head(&[]);
    for name in &names()[..READING_NAMES] {
        let over = |slots, number: fn(&Times) -> f64| {
            runs.spread(name, fill, slots, |times| times.proved / number(times))
        };
        let cell = |slots| {
            let reference = over(slots, |times| times.reference);
            let copies = short(over(slots, |times| times.copy).middle);
            format!("{}; {}", ranged(reference, hundredths), copies)
        };
        text += &format!("| {} | {} |\n", name, SIZES.map(cell).join(" | "));
    }
    text
}

fn head(further: &[&str]) -> String {
    let sizes = SIZES.map(|slots| format!("{} slots", thousands(slots as u64)));
    let columns = sizes.into_iter().chain(further.iter().map(|word| word.to_string()));
    let columns: Vec<String> = columns.collect();
    format!("| call | {} |\n|---|{}\n", columns.join(" | "), "--:|".repeat(columns.len()))
}

/// With the least and the greatest.
fn ranged(spread: Spread, form: fn(f64) -> String) -> String {
    format!("{} ({} to {})", form(spread.middle), form(spread.least), form(spread.most))
}

/// Two digits after the point, and no zero below zero.
fn hundredths(number: f64) -> String {
    format!("{:.2}", (number * 100.0).round() / 100.0 + 0.0)
}

/// Three digits that count, but none after the point where the number is large.
fn digits(number: f64) -> String {
    match number {
        x if x < 1.0 => format!("{:.3}", x),
        x if x < 10.0 => format!("{:.2}", x),
        x if x < 100.0 => format!("{:.1}", x),
        x => thousands(x.round() as u64),
    }
}
