//! The words of the command line.

use std::time::Duration;

pub const USAGE: &str = "\
differential: compares the proved library with the reference

  differential [--seconds S]   runs by chance for S seconds (60)
  differential --long          at least 10,000,000 calls
  differential --calls N       at least N calls
  differential --scenes        the scenes of large pools alone
  --seed N                     the seed of the runs (printed; by default from the clock)
  --run K                      run number K of the seed alone
  --threads N                  how many threads (one for each processor)";

#[derive(Clone, Debug, PartialEq, Eq)]
pub struct Options {
    pub seed: u64,
    pub threads: usize,
    /// Play this run alone.
    pub run: Option<u64>,
    /// Play no runs, only what is always played.
    pub scenes_alone: bool,
    /// Stop after so many calls.
    pub calls: Option<u64>,
    /// Stop after so long, where no number of calls is asked for.
    pub time: Duration,
}

impl Options {
    /// The options in these words; `seed` and `threads` where they name none.
    pub fn read(
        words: impl Iterator<Item = String>,
        seed: u64,
        threads: usize,
    ) -> Result<Options, String> {
        let time = Duration::from_secs(60);
        let mut options =
            Options { seed, threads, run: None, scenes_alone: false, calls: None, time };
        let mut words = words;
        while let Some(word) = words.next() {
            if word == "--long" {
                options.calls = Some(10_000_000);
                continue;
            }
            if word == "--scenes" {
                options.scenes_alone = true;
                continue;
            }
            let known = ["--seed", "--run", "--calls", "--seconds", "--threads"];
            if !known.contains(&word.as_str()) {
                return Err(format!("unknown word: {word}"));
            }
            let number = words.next().and_then(|number| number.parse().ok());
            let number = number.ok_or(format!("{word} needs a number"))?;
            options.set(&word, number);
        }
        Ok(options)
    }

    fn set(&mut self, word: &str, number: u64) {
        match word {
            "--seed" => self.seed = number,
            "--run" => self.run = Some(number),
            "--calls" => self.calls = Some(number),
            "--seconds" => self.time = Duration::from_secs(number),
            _ => self.threads = number.max(1) as usize,
        }
    }
}
