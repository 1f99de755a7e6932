//! Heads on either side. The reference has functions over four numbers, as C
//! has; the Rust crate has a head that holds its pool.

use tjornsaki::raw::HeadNumbers;

/// Asks for so many bytes at a time, each piece behind the one before, until
/// none are handed out. Answers how many askings handed out some.
pub fn ask_to_the_end(out: &mut [u8], size: usize, mut next: impl FnMut(&mut [u8]) -> u64) -> u64 {
    let (mut done, mut askings) = (0, 0);
    while done <= out.len() {
        let end = out.len().min(done + size);
        match next(&mut out[done..end]) as usize {
            0 => break,
            handed => done += handed,
        }
        askings += 1;
    }
    askings
}

pub mod by_crate {
    use super::{ask_to_the_end, HeadNumbers};
    use tjornsaki::{raw, Head, Refusal};

    fn numbers_of(head: &Head) -> HeadNumbers {
        [head.root(), head.place(), head.length(), 1]
    }

    pub fn open(
        pool: &[u8],
        records: &[u8],
        root: u64,
        head: &mut HeadNumbers,
    ) -> Result<u64, Refusal> {
        *head = [0; 4];
        let opened = Head::open(pool, records, root)?;
        *head = numbers_of(&opened);
        Ok(opened.length())
    }

    /// The crate makes no head of numbers: these are handed on to the library.
    pub fn next(pool: &[u8], head: &mut HeadNumbers, out: &mut [u8]) -> u64 {
        let mut answer = [0; 8];
        raw::next(pool, head, out, &mut answer);
        answer[2]
    }

    /// Answers the blob's length, and how many askings handed out some bytes.
    pub fn scan(
        pool: &[u8],
        records: &[u8],
        (root, size): (u64, usize),
        head: &mut HeadNumbers,
        out: &mut [u8],
    ) -> Result<(u64, u64), Refusal> {
        *head = [0; 4];
        let mut opened = Head::open(pool, records, root)?;
        let askings = ask_to_the_end(out, size, |piece| opened.next(piece) as u64);
        *head = numbers_of(&opened);
        Ok((opened.length(), askings))
    }
}

pub mod by_reference {
    use super::{ask_to_the_end, HeadNumbers};
    pub use reference::{next, open_head as open};

    /// Answers the blob's length, and how many askings handed out some bytes. A
    /// refused head is asked too.
    pub fn scan(
        pool: &[u8],
        records: &[u8],
        (root, size): (u64, usize),
        head: &mut HeadNumbers,
        out: &mut [u8],
    ) -> Result<(u64, u64), reference::Refusal> {
        let length = open(pool, records, root, head);
        let askings = ask_to_the_end(out, size, |piece| next(pool, head, piece));
        length.map(|length| (length, askings))
    }
}

#[cfg(test)]
mod tests {
    use super::ask_to_the_end;

    /// Hands out 1, 2, 3 and so on up to ten bytes in all.
    fn ten_bytes() -> impl FnMut(&mut [u8]) -> u64 {
        let mut given = 0;
        move |piece| {
            let size = piece.len().min(10 - given);
            piece[..size].iter_mut().zip(given as u8 + 1..).for_each(|(byte, next)| *byte = next);
            given += size;
            size as u64
        }
    }

    #[test]
    fn the_pieces_lie_one_behind_the_other() {
        for (size, askings) in [(1, 10), (3, 4), (5, 2), (9, 2), (10, 1), (11, 1), (100, 1)] {
            let mut out = [0; 12];
            assert_eq!(ask_to_the_end(&mut out, size, ten_bytes()), askings, "pieces of {size}");
            assert_eq!(out, [1, 2, 3, 4, 5, 6, 7, 8, 9, 10, 0, 0]);
        }
    }

    #[test]
    fn a_side_that_does_not_stop_is_stopped() {
        assert_eq!(ask_to_the_end(&mut [0; 12], 5, |piece| piece.len() as u64), 3);
        assert_eq!(ask_to_the_end(&mut [0; 12], 5, |_| 5), 3);
        assert_eq!(ask_to_the_end(&mut [0; 12], 5, |_| 1), 13);
    }
}
