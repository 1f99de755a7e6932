//! What was met: answers by call and number, and ways of spoiling.

use crate::call::{Call, KINDS};
use crate::draw::SMALL;
use crate::hostile::RAIDS;
use tjornsaki::raw::{Answer, HeadNumbers};

/// Numbers of an answer: 0 for done, 1 to 12 for refused.
const NUMBERS: usize = 13;
/// Heights of a root.
const HEIGHTS: usize = 6;
/// What an asking can meet.
const ASKINGS: [&str; 5] = [
    "a head that is not open",
    "a head at its end or past it",
    "an open head asked for nothing",
    "an open head that has less than is asked",
    "an open head that has what is asked",
];
/// What the root of a head that hands out bytes can be.
const ROOTS: [&str; HEIGHTS + 2] = [
    "bytes below a root of height 0",
    "bytes below a root of height 1",
    "bytes below a root of height 2",
    "bytes below a root of height 3",
    "bytes below a root of height 4",
    "bytes below a root of height 5",
    "bytes below a root of a greater height",
    "bytes below a root beyond the pool",
];

#[derive(Clone, Default)]
pub struct Tally {
    pub calls: u64,
    pub runs: u64,
    pub scenes: u64,
    answers: [[u64; NUMBERS]; KINDS.len()],
    raids: [u64; RAIDS.len()],
    /// Resizes that were done, by the root's height before and after.
    heights: [[u64; HEIGHTS]; HEIGHTS],
    askings: [u64; ASKINGS.len()],
    handed_out: [u64; ROOTS.len()],
    /// Calls over pools of more than 1,024 slots: done and refused.
    large: [[u64; 2]; KINDS.len()],
    /// Demand three: stores tried, and answers by number.
    pub mixed_stores: u64,
    mixed_answers: [u64; NUMBERS],
}

impl Tally {
    /// Counts a call over a pool of so many slots.
    pub fn count_answer(&mut self, call: &Call, answer: &Answer, slots: usize) {
        self.calls += 1;
        if slots > SMALL {
            self.large[call.kind()][usize::from(answer[0] != 0)] += 1;
        }
        self.answers[call.kind()][(answer[0] as usize).min(NUMBERS - 1)] += 1;
    }

    /// Counts an asking by the head as it was before; other calls are none.
    pub fn count_asking(&mut self, call: &Call, head: &HeadNumbers) {
        let [_, place, length, open] = *head;
        if let Call::Next { size } = *call {
            let met = match length.saturating_sub(place) {
                _ if open != 1 => 0,
                0 => 1,
                _ if size == 0 => 2,
                rest if rest < size as u64 => 3,
                _ => 4,
            };
            self.askings[met] += 1;
        }
    }

    /// Counts an asking that handed out bytes by the height of the head's root;
    /// a root beyond the pool has none.
    pub fn count_handed_out(&mut self, height: Option<u8>) {
        let row = height.map_or(HEIGHTS + 1, |height| usize::from(height).min(HEIGHTS));
        self.handed_out[row] += 1;
    }

    pub fn count_raid(&mut self, raid: usize) {
        self.raids[raid] += 1;
    }

    pub fn count_resize(&mut self, before: u8, after: u8) {
        self.heights[usize::from(before) % HEIGHTS][usize::from(after) % HEIGHTS] += 1;
    }

    pub fn count_mixed(&mut self, answer: &Answer) {
        self.mixed_answers[(answer[0] as usize).min(NUMBERS - 1)] += 1;
    }

    pub fn add(&mut self, other: &Tally) {
        self.calls += other.calls;
        self.runs += other.runs;
        self.scenes += other.scenes;
        self.mixed_stores += other.mixed_stores;
        for (row, more) in self.answers.iter_mut().zip(&other.answers) {
            add_rows(row, more);
        }
        for (row, more) in self.large.iter_mut().zip(&other.large) {
            add_rows(row, more);
        }
        for (row, more) in self.heights.iter_mut().zip(&other.heights) {
            add_rows(row, more);
        }
        add_rows(&mut self.askings, &other.askings);
        add_rows(&mut self.handed_out, &other.handed_out);
        add_rows(&mut self.raids, &other.raids);
        add_rows(&mut self.mixed_answers, &other.mixed_answers);
    }

    /// What should have been met and was not.
    pub fn missing(&self) -> Vec<String> {
        let mut missing = Vec::new();
        for (kind, row) in KINDS.iter().zip(&self.answers) {
            if row[0] == 0 {
                missing.push(format!("{} done", kind.name));
            }
            let unmet = kind.refusals.iter().filter(|number| row[**number as usize] == 0);
            missing.extend(unmet.map(|number| format!("{} refused {number}", kind.name)));
        }
        missing.extend(self.missing_large());
        missing.extend(self.missing_stores());
        missing
    }

    /// Every call is to be done, and refused if it can be, over large pools too.
    fn missing_large(&self) -> Vec<String> {
        let mut missing = Vec::new();
        for (kind, [done, refused]) in KINDS.iter().zip(&self.large) {
            if *done == 0 {
                missing.push(format!("{} done over a large pool", kind.name));
            }
            if *refused == 0 && !kind.refusals.is_empty() {
                missing.push(format!("{} refused over a large pool", kind.name));
            }
        }
        missing
    }

    fn missing_stores(&self) -> Vec<String> {
        let mut missing = Vec::new();
        for (before, row) in self.heights.iter().enumerate() {
            let unmet = row.iter().enumerate().filter(|(_, count)| **count == 0);
            missing
                .extend(unmet.map(|(after, _)| format!("resize from height {before} to {after}")));
        }
        let unmet = RAIDS.iter().zip(&self.raids).filter(|(_, count)| **count == 0);
        missing.extend(unmet.map(|((name, _), _)| name.to_string()));
        let unmet = self.heads().filter(|(_, count)| *count == 0);
        missing.extend(unmet.map(|(name, _)| name.to_string()));
        let of_demand_three =
            [0, 4, 5, 6, 7, 9, 10].iter().filter(|n| self.mixed_answers[**n] == 0);
        missing.extend(of_demand_three.map(|number| format!("demand three: answer {number}")));
        missing
    }

    /// What was met of heads, by name.
    fn heads(&self) -> impl Iterator<Item = (&'static str, u64)> + '_ {
        let askings = ASKINGS.iter().zip(&self.askings);
        let rows = askings.chain(ROOTS.iter().zip(&self.handed_out));
        rows.map(|(name, count)| (*name, *count))
    }

    /// Refusals of a kind of call that it cannot give.
    pub fn unexpected(&self) -> Vec<String> {
        let mut unexpected = Vec::new();
        for (kind, row) in KINDS.iter().zip(&self.answers) {
            let others = (1..NUMBERS as u64).filter(|number| !kind.refusals.contains(number));
            let met = others.filter(|number| row[*number as usize] > 0);
            unexpected.extend(met.map(|number| format!("{} refused {number}", kind.name)));
        }
        unexpected
    }

    pub fn print(&self) {
        println!("answers by call: done, and each refusal (. cannot be given)");
        print!("{:>8} {:>9}", "", "done");
        (1..NUMBERS).for_each(|number| print!(" {number:>8}"));
        println!();
        for (kind, row) in KINDS.iter().zip(&self.answers) {
            print!("{:>8} {:>9}", kind.name, row[0]);
            for (number, count) in row.iter().enumerate().skip(1) {
                match kind.refusals.contains(&(number as u64)) || *count > 0 {
                    true => print!(" {count:>8}"),
                    false => print!(" {:>8}", "."),
                }
            }
            println!();
        }
        self.print_large();
        println!("resizes done, by the root's height before (rows) and after (columns)");
        for (height, row) in self.heights.iter().enumerate() {
            let counts: Vec<String> = row.iter().map(|count| format!("{count:>9}")).collect();
            println!("{height:>8} {}", counts.join(" "));
        }
        println!("askings of heads");
        self.heads().for_each(|(name, count)| println!("{count:>9} {name}"));
        self.print_stores();
    }

    fn print_large(&self) {
        let calls: u64 = self.large.iter().flatten().sum();
        println!("{calls} calls over large pools, of more than 1,024 slots: done and refused");
        for (kind, [done, refused]) in KINDS.iter().zip(&self.large) {
            println!("{:>8} {done:>9} {refused:>8}", kind.name);
        }
    }

    fn print_stores(&self) {
        println!("stores spoilt or shifted");
        RAIDS.iter().zip(&self.raids).for_each(|((name, _), count)| println!("{count:>9} {name}"));
        println!("demand three: {} stores of old blocks; answers by number", self.mixed_stores);
        let answers = self.mixed_answers.iter().enumerate().filter(|(_, count)| **count > 0);
        answers.for_each(|(number, count)| println!("{count:>9} of {number}"));
    }
}

fn add_rows(row: &mut [u64], more: &[u64]) {
    row.iter_mut().zip(more).for_each(|(count, more)| *count += more);
}
