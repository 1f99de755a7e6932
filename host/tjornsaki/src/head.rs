//! A blob from its first byte to its last, in pieces.

use crate::raw::{self, HeadNumbers};
use crate::{asked, Refusal};
use std::fmt;
use std::io::{self, Read};

/// Reads a blob from its first byte to its last, in pieces of any size.
///
/// Opening it checks the blob once. After that each [`next`](Head::next) hands
/// out the bytes that follow, as many as are asked for or as remain; however the
/// asking is cut up, the pieces joined are what one [`read`](crate::read) gives.
///
/// ```
/// # fn main() -> Result<(), tjornsaki::Refusal> {
/// use tjornsaki::Head;
///
/// let (mut pool, mut records) = tjornsaki::room(8);
/// tjornsaki::wipe(&mut pool, &mut records)?;
/// let blob = tjornsaki::create(&mut pool, &mut records)?;
/// tjornsaki::resize(&mut pool, &mut records, blob, 11)?;
/// tjornsaki::write(&mut pool, &mut records, blob, 0, b"hello world")?;
///
/// let mut head = Head::open(&pool, &records, blob)?;
/// let (mut piece, mut pieces) = ([0; 4], Vec::new());
/// loop {
///     let size = head.next(&mut piece);
///     if size == 0 {
///         break;
///     }
///     pieces.push(piece[..size].to_vec());
/// }
/// assert_eq!(pieces, [&b"hell"[..], b"o wo", b"rld"]);
/// # Ok(())
/// # }
/// ```
///
/// It is a [`Read`] that never fails, so all that takes one takes a head. It has
/// no bytes of its own to show: for a [`BufRead`](io::BufRead), put it into a
/// [`BufReader`](io::BufReader).
///
/// ```
/// use std::io::{self, BufRead, BufReader};
/// use tjornsaki::Head;
///
/// # fn main() -> io::Result<()> {
/// let (mut pool, mut records) = tjornsaki::room(8);
/// tjornsaki::wipe(&mut pool, &mut records)?;
/// let list = tjornsaki::create(&mut pool, &mut records)?;
/// let text = b"7c20  timeout in the loader\na41f  crash in the decoder\n";
/// tjornsaki::resize(&mut pool, &mut records, list, text.len() as u64)?;
/// tjornsaki::write(&mut pool, &mut records, list, 0, text)?;
///
/// let mut copy = Vec::new(); // a file, say
/// assert_eq!(io::copy(&mut Head::open(&pool, &records, list)?, &mut copy)?, 55);
/// assert_eq!(copy, text);
///
/// let lines = BufReader::new(Head::open(&pool, &records, list)?).lines();
/// let found = lines.map(Result::unwrap).find(|line| line.starts_with("a41f"));
/// assert_eq!(found.as_deref(), Some("a41f  crash in the decoder"));
/// # Ok(())
/// # }
/// ```
///
/// It keeps hold of the pool: as long as it is used, the pool cannot change.
///
/// ```compile_fail,E0502
/// # fn main() -> Result<(), tjornsaki::Refusal> {
/// # let (mut pool, mut records) = tjornsaki::room(8);
/// # tjornsaki::wipe(&mut pool, &mut records)?;
/// # let blob = tjornsaki::create(&mut pool, &mut records)?;
/// let mut head = tjornsaki::Head::open(&pool, &records, blob)?;
/// tjornsaki::resize(&mut pool, &mut records, blob, 100)?; // the pool is borrowed
/// head.next(&mut [0; 48]);
/// # Ok(())
/// # }
/// ```
///
/// A clone is a second head at the same place, and goes on by itself.
#[derive(Clone)]
pub struct Head<'a> {
    pool: &'a [u8],
    numbers: HeadNumbers,
}

impl<'a> Head<'a> {
    /// Opens a head at the blob's first byte. It is refused as
    /// [`length`](crate::length) is; the records are not needed any more after
    /// it.
    ///
    /// ```
    /// let (mut pool, mut records) = tjornsaki::room(4);
    /// tjornsaki::wipe(&mut pool, &mut records)?;
    /// let refusal = tjornsaki::Head::open(&pool, &records, 0).unwrap_err();
    /// assert_eq!(refusal.words(), "not a root");
    /// # Ok::<(), tjornsaki::Refusal>(())
    /// ```
    pub fn open(pool: &'a [u8], records: &[u8], root: u64) -> Result<Head<'a>, Refusal> {
        let mut numbers = [0; 4];
        asked(|answer| raw::open_head(pool, records, root, &mut numbers, answer))?;
        Ok(Head { pool, numbers })
    }

    /// Puts the next bytes into the first ones of `out`, as many as it has room
    /// for or as remain, and answers how many; the rest of `out` stays as it is.
    /// At the end that is none.
    ///
    /// ```
    /// let (mut pool, mut records) = tjornsaki::room(4);
    /// tjornsaki::wipe(&mut pool, &mut records)?;
    /// let blob = tjornsaki::create(&mut pool, &mut records)?;
    /// tjornsaki::resize(&mut pool, &mut records, blob, 3)?;
    ///
    /// let mut head = tjornsaki::Head::open(&pool, &records, blob)?;
    /// let mut out = [7; 5];
    /// assert_eq!((head.next(&mut out), out), (3, [0, 0, 0, 7, 7]));
    /// assert_eq!((head.next(&mut out), out), (0, [0, 0, 0, 7, 7]));
    /// # Ok::<(), tjornsaki::Refusal>(())
    /// ```
    pub fn next(&mut self, out: &mut [u8]) -> usize {
        let mut answer = [0; 8];
        raw::next(self.pool, &mut self.numbers, out, &mut answer);
        answer[2] as usize
    }

    /// The blob's root.
    pub fn root(&self) -> u64 {
        self.numbers[0]
    }

    /// How many bytes were handed out.
    pub fn place(&self) -> u64 {
        self.numbers[1]
    }

    /// The blob's length.
    pub fn length(&self) -> u64 {
        self.numbers[2]
    }

    /// How many bytes follow.
    ///
    /// ```
    /// let (mut pool, mut records) = tjornsaki::room(4);
    /// tjornsaki::wipe(&mut pool, &mut records)?;
    /// let blob = tjornsaki::create(&mut pool, &mut records)?;
    /// tjornsaki::resize(&mut pool, &mut records, blob, 100)?;
    ///
    /// let mut head = tjornsaki::Head::open(&pool, &records, blob)?;
    /// head.next(&mut [0; 30]);
    /// assert_eq!((head.place(), head.length(), head.remaining()), (30, 100, 70));
    /// # Ok::<(), tjornsaki::Refusal>(())
    /// ```
    pub fn remaining(&self) -> u64 {
        self.length() - self.place()
    }
}

/// The same bytes by [`next`](Head::next), and never an error.
impl Read for Head<'_> {
    fn read(&mut self, out: &mut [u8]) -> io::Result<usize> {
        Ok(self.next(out))
    }
}

/// Without the pool.
impl fmt::Debug for Head<'_> {
    fn fmt(&self, out: &mut fmt::Formatter<'_>) -> fmt::Result {
        let mut shown = out.debug_struct("Head");
        shown.field("root", &self.root()).field("place", &self.place());
        shown.field("length", &self.length()).finish_non_exhaustive()
    }
}
