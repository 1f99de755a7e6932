//! Numbers in sentences.

/// A count with its noun: 1 byte, 2 bytes.
pub fn counted(count: u64, noun: &str) -> String {
    let ending = if count == 1 { "" } else { "s" };
    format!("{count} {noun}{ending}")
}

/// A noun with its numbers: slot 1, slots 1 and 3.
pub fn named(noun: &str, numbers: &[u64]) -> String {
    let ending = if numbers.len() == 1 { "" } else { "s" };
    format!("{noun}{ending} {}", listed(numbers, "and"))
}

/// Rising numbers with a word before the last: 1, 4 to 7 and 9.
pub fn listed(numbers: &[u64], word: &str) -> String {
    match runs(numbers).split_last() {
        None => "none".into(),
        Some((last, [])) => last.clone(),
        Some((last, rest)) => format!("{} {word} {last}", rest.join(", ")),
    }
}

/// Single numbers, and three or more in a run by the first and the last.
fn runs(numbers: &[u64]) -> Vec<String> {
    let mut words = Vec::new();
    let mut rest = numbers;
    while let Some(first) = rest.first() {
        let run = rest.iter().zip(*first..).take_while(|(number, next)| *number == next).count();
        let taken = if run < 3 { 1 } else { run };
        match taken {
            1 => words.push(first.to_string()),
            _ => words.push(format!("{first} to {}", rest[taken - 1])),
        }
        rest = &rest[taken..];
    }
    words
}

#[cfg(test)]
mod tests {
    use super::*;

    #[test]
    fn counts() {
        assert_eq!(
            [0, 1, 2].map(|count| counted(count, "free slot")),
            ["0 free slots", "1 free slot", "2 free slots"]
        );
    }

    #[test]
    fn lists() {
        let rows: [&[u64]; 5] = [&[], &[4], &[4, 5], &[4, 6, 9], &[1, 2, 4, 5, 6, 9, 10, 11, 12]];
        let words = ["none", "4", "4 and 5", "4, 6 and 9", "1, 2, 4 to 6 and 9 to 12"];
        assert_eq!(rows.map(|row| listed(row, "and")), words);
        assert_eq!(named("slot", &[4]), "slot 4");
        assert_eq!(named("slot", &[4, 5]), "slots 4 and 5");
    }
}
