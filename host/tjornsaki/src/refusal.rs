//! How the store says no.

use std::error::Error;
use std::{fmt, io};

/// A refused call: why, and the slot to blame where there is one.
///
/// A refused call has written nothing anywhere.
///
/// ```
/// use tjornsaki::Refusal;
///
/// let refusal = Refusal { number: 6, slot: Some(17) };
/// assert_eq!(refusal.words(), "rolled back");
/// assert_eq!(refusal.to_string(), "refused 6: slot 17 was rolled back");
/// ```
///
/// | number | words | names a slot |
/// |---|---|---|
/// | 1 | wrong lengths | no |
/// | 2 | broken record | the lowest such slot |
/// | 3 | not a root | no |
/// | 4 | spoiled | the block's slot |
/// | 5 | moved | the block's slot |
/// | 6 | rolled back | the block's slot |
/// | 7 | ahead | the block's slot |
/// | 8 | wrong shape | the block's slot |
/// | 9 | reintroduced | the block's slot |
/// | 10 | out of range | no |
/// | 11 | no room | no |
/// | 12 | worn | no |
#[derive(Clone, Copy, Debug, PartialEq, Eq, Hash)]
pub struct Refusal {
    /// Which refusal it is, 1 to 12.
    pub number: u64,
    /// The slot to blame; none for 1, 3, 10, 11 and 12.
    pub slot: Option<u64>,
}

impl Refusal {
    /// A word or two for the number.
    ///
    /// ```
    /// let refusal = tjornsaki::length(&[], &[], 0).unwrap_err();
    /// assert_eq!((refusal.number, refusal.words()), (1, "wrong lengths"));
    /// ```
    pub fn words(&self) -> &'static str {
        const WORDS: [&str; 12] = [
            "wrong lengths",
            "broken record",
            "not a root",
            "spoiled",
            "moved",
            "rolled back",
            "ahead",
            "wrong shape",
            "reintroduced",
            "out of range",
            "no room",
            "worn",
        ];
        let row = self.number.wrapping_sub(1) as usize;
        WORDS.get(row).copied().unwrap_or("unknown")
    }

    /// The sentence after the number, where no slot is to blame.
    fn sentence(&self) -> &'static str {
        match self.number {
            1 => "the lengths of pool and records do not fit",
            3 => "the named slot is not a root",
            10 => "the range or the leaf lies beyond the blob",
            11 => "more new blocks are needed than slots are usable",
            12 => "a block of the blob is at its last version",
            _ => self.words(),
        }
    }

    /// What is said of the slot to blame.
    fn blame(&self) -> &'static str {
        match self.number {
            2 => "has a broken record",
            4 => "is spoiled",
            5 => "was moved",
            6 => "was rolled back",
            7 => "is ahead of its record",
            8 => "has the wrong shape",
            9 => "was reintroduced",
            _ => self.words(),
        }
    }
}

impl fmt::Display for Refusal {
    fn fmt(&self, out: &mut fmt::Formatter<'_>) -> fmt::Result {
        match self.slot {
            Some(slot) => write!(out, "refused {}: slot {} {}", self.number, slot, self.blame()),
            None => write!(out, "refused {}: {}", self.number, self.sentence()),
        }
    }
}

impl Error for Refusal {}

/// So that `?` hands a refusal on where bytes are read and written; the refusal
/// itself stands in the error.
///
/// ```
/// use std::io;
/// use tjornsaki::{Head, Refusal};
///
/// fn copy(pool: &[u8], records: &[u8], blob: u64, out: &mut impl io::Write) -> io::Result<u64> {
///     io::copy(&mut Head::open(pool, records, blob)?, out)
/// }
///
/// let error = copy(&[], &[], 0, &mut io::sink()).unwrap_err();
/// let refusal = error.get_ref().and_then(|inside| inside.downcast_ref());
/// assert_eq!(refusal, Some(&Refusal { number: 1, slot: None }));
/// ```
impl From<Refusal> for io::Error {
    fn from(refusal: Refusal) -> io::Error {
        io::Error::new(io::ErrorKind::Other, refusal)
    }
}
