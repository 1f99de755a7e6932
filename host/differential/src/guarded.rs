//! Buffers with guard bytes around them.

/// Odd, so that a lent part starts at an odd address.
const GUARD_SIZE: usize = 61;
const GUARD_BYTE: u8 = 0xC3;

/// Bytes to lend, with guards before and after them.
#[derive(Clone)]
pub struct Guarded {
    bytes: Vec<u8>,
}

impl Guarded {
    pub fn new(inside: &[u8]) -> Guarded {
        let mut bytes = vec![GUARD_BYTE; inside.len() + 2 * GUARD_SIZE];
        bytes[GUARD_SIZE..GUARD_SIZE + inside.len()].copy_from_slice(inside);
        Guarded { bytes }
    }

    pub fn inside(&self) -> &[u8] {
        &self.bytes[GUARD_SIZE..self.bytes.len() - GUARD_SIZE]
    }

    pub fn inside_mut(&mut self) -> &mut [u8] {
        let end = self.bytes.len() - GUARD_SIZE;
        &mut self.bytes[GUARD_SIZE..end]
    }

    /// Whether no guard byte has changed.
    pub fn is_intact(&self) -> bool {
        let (before, rest) = self.bytes.split_at(GUARD_SIZE);
        let after = &rest[rest.len() - GUARD_SIZE..];
        before.iter().chain(after).all(|byte| *byte == GUARD_BYTE)
    }
}

const GUARD_NUMBER: u64 = 0xC3C3_C3C3_C3C3_C3C3;

/// The numbers of an answer or of a head, with guards before and after them.
pub struct GuardedNumbers<const COUNT: usize> {
    numbers: [[u64; COUNT]; 3],
}

impl<const COUNT: usize> GuardedNumbers<COUNT> {
    pub fn new(inside: [u64; COUNT]) -> GuardedNumbers<COUNT> {
        let guard = [GUARD_NUMBER; COUNT];
        GuardedNumbers { numbers: [guard, inside, guard] }
    }

    pub fn inside(&self) -> [u64; COUNT] {
        self.numbers[1]
    }

    pub fn inside_mut(&mut self) -> &mut [u64; COUNT] {
        &mut self.numbers[1]
    }

    /// Whether no guard number has changed.
    pub fn is_intact(&self) -> bool {
        [self.numbers[0], self.numbers[2]] == [[GUARD_NUMBER; COUNT]; 2]
    }
}

#[cfg(test)]
mod tests {
    use super::*;

    #[test]
    fn a_changed_guard_is_seen() {
        let mut buffer = Guarded::new(&[1, 2, 3]);
        assert_eq!(buffer.inside(), [1, 2, 3]);
        buffer.inside_mut().fill(9);
        assert!(buffer.is_intact());
        for at in [0, GUARD_SIZE - 1, GUARD_SIZE + 3, 2 * GUARD_SIZE + 2] {
            let mut changed = buffer.clone();
            changed.bytes[at] = 0;
            assert!(!changed.is_intact());
        }
        assert!(Guarded::new(&[]).is_intact());
    }

    #[test]
    fn a_changed_guard_of_numbers_is_seen() {
        for (row, place) in [(0, 0), (0, 3), (2, 0), (2, 3)] {
            let mut head = GuardedNumbers::new([1, 2, 3, 4]);
            assert_eq!(head.inside(), [1, 2, 3, 4]);
            head.inside_mut().fill(0);
            assert!(head.is_intact());
            head.numbers[row][place] = 0;
            assert!(!head.is_intact());
        }
    }
}
