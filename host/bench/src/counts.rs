//! Numbers of instructions, from lines of case, fill, slots, side and number.

use std::collections::HashMap;

/// The instructions of library and reference for each case.
pub struct Counts(HashMap<String, u64>);

/// Takes the lines apart. Lines that do not fit are left out.
pub fn counts(text: &str) -> Counts {
    let line = |line: &str| {
        let (key, number) = line.rsplit_once('\t')?;
        Some((key.to_string(), number.parse().ok()?))
    };
    Counts(text.lines().filter_map(line).collect())
}

impl Counts {
    pub fn is_empty(&self) -> bool {
        self.0.is_empty()
    }

    /// Library and reference.
    pub fn of(&self, name: &str, fill: &str, slots: usize) -> Option<(u64, u64)> {
        let side = |side| self.0.get(&format!("{}\t{}\t{}\t{}", name, fill, slots, side)).copied();
        Some((side("proved")?, side("reference")?))
    }
}
