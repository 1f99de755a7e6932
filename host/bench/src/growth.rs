//! What several runs over larger pools gave: medians, ranges, and exponents.

use crate::measure::Times;
use crate::page::Result;
use crate::scale::{self, SIZES};
use crate::stores::Fill;
use std::collections::HashMap;

/// Times by call, store and slots, one for each run. That of the reference is no
/// number where it was not measured.
#[derive(Default)]
pub struct Runs(HashMap<(String, String, usize), Vec<Times>>);

/// The value in the middle, the least and the greatest.
#[derive(Clone, Copy)]
pub struct Spread {
    pub middle: f64,
    pub least: f64,
    pub most: f64,
}

/// Takes the lines of all runs apart. Lines that do not fit are left out.
pub fn runs(text: &str) -> Runs {
    let mut runs = Runs::default();
    for line in text.lines() {
        if let Some((key, times)) = parts(line) {
            runs.0.entry(key).or_default().push(times);
        }
    }
    runs
}

fn parts(line: &str) -> Option<((String, String, usize), Times)> {
    let words: Vec<&str> = line.split('\t').collect();
    let number = |at: usize| words.get(at)?.parse::<f64>().ok();
    let times = Times {
        proved: number(3)?,
        reference: number(4)?,
        copy: number(5)?,
        copy_pool: number(6)?,
    };
    Some(((words[0].into(), words[1].into(), words[2].parse().ok()?), times))
}

impl Runs {
    /// How many there were: those in which every case was measured.
    pub fn count(&self) -> usize {
        self.0.values().map(Vec::len).min().unwrap_or(0)
    }

    fn of(&self, name: &str, fill: Fill, slots: usize) -> &[Times] {
        self.0.get(&(name.into(), fill.word().into(), slots)).map_or(&[], Vec::as_slice)
    }

    /// A number of one case over the runs.
    pub fn spread(
        &self,
        name: &str,
        fill: Fill,
        slots: usize,
        number: impl Fn(&Times) -> f64,
    ) -> Spread {
        spread(self.of(name, fill, slots).iter().map(number).collect())
    }

    /// Every case by its medians, as if there had been one run.
    pub fn results(&self) -> Vec<Result> {
        let result = |(fill, slots, name)| {
            let middle = |number: fn(&Times) -> f64| self.spread(name, fill, slots, number).middle;
            let times = Times {
                proved: middle(|times| times.proved),
                reference: middle(|times| times.reference),
                copy: middle(|times| times.copy),
                copy_pool: middle(|times| times.copy_pool),
            };
            Result { name, fill, slots, touched: 0, times }
        };
        let measured = if self.count() > 0 { usize::MAX } else { 0 };
        scale::cases().take(measured).map(result).collect()
    }

    /// The exponent of time over slots, fitted in each run to the first sizes.
    pub fn exponent(&self, name: &str, fill: Fill, sizes: usize) -> Spread {
        let time = |run: usize| move |slots: &usize| self.of(name, fill, *slots)[run].proved;
        let fit = |run| exponent(&SIZES[..sizes], SIZES[..sizes].iter().map(time(run)).collect());
        spread((0..self.count()).map(fit).collect())
    }
}

fn spread(mut values: Vec<f64>) -> Spread {
    values.sort_by(f64::total_cmp);
    let (least, most) = (values[0], values[values.len() - 1]);
    let middle = (values[(values.len() - 1) / 2] + values[values.len() / 2]) / 2.0;
    Spread { middle, least, most }
}

/// The slope of the straight line through the logarithms, by least squares.
fn exponent(sizes: &[usize], times: Vec<f64>) -> f64 {
    let xs: Vec<f64> = sizes.iter().map(|slots| (*slots as f64).ln()).collect();
    let ys: Vec<f64> = times.into_iter().map(f64::ln).collect();
    let mean = |numbers: &[f64]| numbers.iter().sum::<f64>() / numbers.len() as f64;
    let (x_mean, y_mean) = (mean(&xs), mean(&ys));
    let product: f64 = xs.iter().zip(&ys).map(|(x, y)| (x - x_mean) * (y - y_mean)).sum();
    product / xs.iter().map(|x| (x - x_mean).powi(2)).sum::<f64>()
}

#[cfg(test)]
mod tests {
    use super::*;

    /// Lines of runs in which times grow by these exponents, and the last size
    /// takes so many times what that says.
    fn lines(exponents: &[f64], last: f64) -> String {
        let line = |exponent: &f64, slots: usize| {
            let more = if slots == SIZES[3] { last } else { 1.0 };
            let time = 3.0 * more * (slots as f64).powf(*exponent);
            format!("audit\tfull\t{}\t{}\tNaN\t1\t1\n", slots, time)
        };
        exponents.iter().flat_map(|e| SIZES.iter().map(move |slots| line(e, *slots))).collect()
    }

    #[test]
    fn exponents_are_those_of_the_times_in_the_middle_of_all_runs() {
        let runs = runs(&lines(&[1.5, 0.5, 1.0, 1.1], 1.0));
        let Spread { middle, least, most } = runs.exponent("audit", Fill::Full, 4);
        assert_eq!(runs.count(), 4);
        let near = |a: f64, b: f64| (a - b).abs() < 1e-9;
        assert!(near(middle, 1.05) && near(least, 0.5) && near(most, 1.5));
    }

    #[test]
    fn a_size_that_falls_out_counts_only_where_it_is_fitted() {
        let runs = runs(&lines(&[1.0], 8.0));
        assert!((runs.exponent("audit", Fill::Full, 3).middle - 1.0).abs() < 1e-9);
        assert!(runs.exponent("audit", Fill::Full, 4).middle > 1.2);
    }

    #[test]
    fn lines_that_do_not_fit_are_left_out() {
        assert_eq!(runs("audit\tfull\t64\t1\t2\t3\nnothing\n").count(), 0);
    }
}
