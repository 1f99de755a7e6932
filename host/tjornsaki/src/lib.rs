//! A block store over two lent byte slices, proved to follow its rules byte for
//! byte.
//!
//! The *pool* holds blocks of 64 bytes and is not trusted: blocks may be
//! damaged, moved or old. The *records*, 12 bytes for each slot of the pool,
//! hold the state and version of each slot and are trusted. A *blob* is a
//! string of bytes, named by the slot of its root, which never changes while
//! the blob lives. Every call checks what it reads against the records and
//! answers its result or a [`Refusal`]; a refused call writes nothing.
//!
//! ```
//! # fn main() -> Result<(), tjornsaki::Refusal> {
//! let (mut pool, mut records) = tjornsaki::room(16);
//! tjornsaki::wipe(&mut pool, &mut records)?;
//! let blob = tjornsaki::create(&mut pool, &mut records)?;
//! tjornsaki::resize(&mut pool, &mut records, blob, 100)?;
//! tjornsaki::write(&mut pool, &mut records, blob, 95, b"hello")?;
//!
//! let mut word = [0; 5];
//! tjornsaki::read(&pool, &records, blob, 95, &mut word)?;
//! assert_eq!(&word, b"hello");
//! assert_eq!(tjornsaki::audit(&pool, &records)?, 4); // three leaves and a root
//!
//! pool[8] -= 1; // an older version of the root
//! let refusal = tjornsaki::length(&pool, &records, blob).unwrap_err();
//! assert_eq!(refusal.to_string(), "refused 6: slot 0 was rolled back");
//! # Ok(())
//! # }
//! ```
//!
//! A [`Head`] reads a blob from its first byte to its last, in pieces of any
//! size, and checks it once.
//!
//! The calls take nothing from the heap. Their stack grows with the slots, as
//! `include/tjornsaki.h` has it: at most 737,280 bytes with [`MOST_SLOTS`], so
//! the 2 MiB that Rust gives a thread are enough.
//!
//! This crate only lends slices to the library and takes its answer apart.
#![deny(unsafe_code)]
#![warn(missing_docs)]

mod head;
pub mod raw;
mod refusal;

pub use head::Head;
use raw::{Answer, NO_SLOT};
pub use refusal::Refusal;

/// The bytes of a slot's block in the pool.
pub const BLOCK_BYTES: usize = 64;

/// The bytes of a slot's record.
pub const RECORD_BYTES: usize = 12;

/// The most slots that a store can have.
pub const MOST_SLOTS: usize = 65_536;

/// A pool and records of fitting lengths for this many slots, 1 to
/// [`MOST_SLOTS`]. They hold no store before [`wipe`].
///
/// ```
/// let (pool, records) = tjornsaki::room(4);
/// assert_eq!((pool.len(), records.len()), (256, 48));
/// ```
pub fn room(slots: usize) -> (Vec<u8>, Vec<u8>) {
    (vec![0; BLOCK_BYTES * slots], vec![0; RECORD_BYTES * slots])
}

/// Makes an empty store: the pool all zeros, each record free at version 0.
/// Refused with 1 only.
///
/// ```
/// let (mut pool, mut records) = (vec![7; 256], vec![7; 48]);
/// tjornsaki::wipe(&mut pool, &mut records)?;
/// assert_eq!(tjornsaki::audit(&pool, &records)?, 0);
/// # Ok::<(), tjornsaki::Refusal>(())
/// ```
pub fn wipe(pool: &mut [u8], records: &mut [u8]) -> Result<(), Refusal> {
    asked(|answer| raw::wipe(pool, records, answer)).map(nothing)
}

/// Makes an empty blob in the lowest usable free slot and answers that slot.
///
/// ```
/// let (mut pool, mut records) = tjornsaki::room(1);
/// tjornsaki::wipe(&mut pool, &mut records)?;
/// assert_eq!(tjornsaki::create(&mut pool, &mut records), Ok(0));
/// let refusal = tjornsaki::create(&mut pool, &mut records).unwrap_err();
/// assert_eq!(refusal.words(), "no room");
/// # Ok::<(), tjornsaki::Refusal>(())
/// ```
pub fn create(pool: &mut [u8], records: &mut [u8]) -> Result<u64, Refusal> {
    asked(|answer| raw::create(pool, records, answer)).map(value)
}

/// The blob's length in bytes.
///
/// ```
/// let (mut pool, mut records) = tjornsaki::room(4);
/// tjornsaki::wipe(&mut pool, &mut records)?;
/// let blob = tjornsaki::create(&mut pool, &mut records)?;
/// assert_eq!(tjornsaki::length(&pool, &records, blob), Ok(0));
/// # Ok::<(), tjornsaki::Refusal>(())
/// ```
pub fn length(pool: &[u8], records: &[u8], root: u64) -> Result<u64, Refusal> {
    asked(|answer| raw::length(pool, records, root, answer)).map(value)
}

/// Fills the whole of `out` with the blob's bytes from `offset` on. Refused
/// with 10 if the blob does not reach so far; then `out` stays as it is. Every
/// read checks the whole blob: to read one in pieces, open a [`Head`].
///
/// ```
/// let (mut pool, mut records) = tjornsaki::room(4);
/// tjornsaki::wipe(&mut pool, &mut records)?;
/// let blob = tjornsaki::create(&mut pool, &mut records)?;
/// tjornsaki::resize(&mut pool, &mut records, blob, 3)?;
///
/// let mut out = [1; 3];
/// tjornsaki::read(&pool, &records, blob, 0, &mut out)?;
/// assert_eq!(out, [0; 3]);
/// let refusal = tjornsaki::read(&pool, &records, blob, 1, &mut out).unwrap_err();
/// assert_eq!(refusal.words(), "out of range");
/// # Ok::<(), tjornsaki::Refusal>(())
/// ```
pub fn read(
    pool: &[u8],
    records: &[u8],
    root: u64,
    offset: u64,
    out: &mut [u8],
) -> Result<(), Refusal> {
    asked(|answer| raw::read(pool, records, root, offset, out, answer)).map(nothing)
}

/// Puts `data` into the blob from `offset` on, inside its present length. It
/// never lengthens: see [`resize`].
///
/// ```
/// let (mut pool, mut records) = tjornsaki::room(4);
/// tjornsaki::wipe(&mut pool, &mut records)?;
/// let blob = tjornsaki::create(&mut pool, &mut records)?;
/// tjornsaki::resize(&mut pool, &mut records, blob, 50)?;
/// tjornsaki::write(&mut pool, &mut records, blob, 46, b"over")?;
/// assert_eq!(tjornsaki::show(&pool, &records, blob, 1)?, b"er");
/// # Ok::<(), tjornsaki::Refusal>(())
/// ```
pub fn write(
    pool: &mut [u8],
    records: &mut [u8],
    root: u64,
    offset: u64,
    data: &[u8],
) -> Result<(), Refusal> {
    asked(|answer| raw::write(pool, records, root, offset, data, answer)).map(nothing)
}

/// Makes the blob longer, with zeros at its end, or cuts it.
///
/// ```
/// let (mut pool, mut records) = tjornsaki::room(2);
/// tjornsaki::wipe(&mut pool, &mut records)?;
/// let blob = tjornsaki::create(&mut pool, &mut records)?;
/// tjornsaki::resize(&mut pool, &mut records, blob, 48)?;
/// let refusal = tjornsaki::resize(&mut pool, &mut records, blob, 49).unwrap_err();
/// assert_eq!(refusal.words(), "no room"); // two leaves and a root need three slots
/// # Ok::<(), tjornsaki::Refusal>(())
/// ```
pub fn resize(pool: &mut [u8], records: &mut [u8], root: u64, length: u64) -> Result<(), Refusal> {
    asked(|answer| raw::resize(pool, records, root, length, answer)).map(nothing)
}

/// Frees every block of the blob.
///
/// ```
/// let (mut pool, mut records) = tjornsaki::room(4);
/// tjornsaki::wipe(&mut pool, &mut records)?;
/// let blob = tjornsaki::create(&mut pool, &mut records)?;
/// tjornsaki::delete(&mut pool, &mut records, blob)?;
/// let refusal = tjornsaki::length(&pool, &records, blob).unwrap_err();
/// assert_eq!(refusal.words(), "not a root");
/// # Ok::<(), tjornsaki::Refusal>(())
/// ```
pub fn delete(pool: &mut [u8], records: &mut [u8], root: u64) -> Result<(), Refusal> {
    asked(|answer| raw::delete(pool, records, root, answer)).map(nothing)
}

/// The bytes of one leaf of the blob, counted from 0, as they lie in the pool:
/// a part of it, not a copy.
///
/// ```
/// let (mut pool, mut records) = tjornsaki::room(4);
/// tjornsaki::wipe(&mut pool, &mut records)?;
/// let blob = tjornsaki::create(&mut pool, &mut records)?;
/// tjornsaki::resize(&mut pool, &mut records, blob, 50)?;
/// assert_eq!(tjornsaki::show(&pool, &records, blob, 0)?.len(), 48);
/// assert_eq!(tjornsaki::show(&pool, &records, blob, 1)?.len(), 2);
/// # Ok::<(), tjornsaki::Refusal>(())
/// ```
pub fn show<'a>(pool: &'a [u8], records: &[u8], root: u64, leaf: u64) -> Result<&'a [u8], Refusal> {
    let answer = asked(|answer| raw::show(pool, records, root, leaf, answer))?;
    let (start, size) = (answer[2] as usize, answer[3] as usize);
    Ok(&pool[start..start + size])
}

/// Checks the whole store and answers the count of live slots.
///
/// ```
/// let (mut pool, mut records) = tjornsaki::room(4);
/// tjornsaki::wipe(&mut pool, &mut records)?;
/// assert_eq!(tjornsaki::audit(&pool, &records), Ok(0));
/// pool[100] = 1;
/// let refusal = tjornsaki::audit(&pool, &records).unwrap_err();
/// assert_eq!(refusal.to_string(), "refused 9: slot 1 was reintroduced");
/// # Ok::<(), tjornsaki::Refusal>(())
/// ```
pub fn audit(pool: &[u8], records: &[u8]) -> Result<u64, Refusal> {
    asked(|answer| raw::audit(pool, records, answer)).map(value)
}

/// Makes a call that leaves an answer, and takes its refusal out.
fn asked(call: impl FnOnce(&mut Answer)) -> Result<Answer, Refusal> {
    let mut answer = [0; 8];
    call(&mut answer);
    if answer[0] == 0 {
        return Ok(answer);
    }
    let slot = if answer[1] == NO_SLOT { None } else { Some(answer[1]) };
    Err(Refusal { number: answer[0], slot })
}

fn value(answer: Answer) -> u64 {
    answer[2]
}

fn nothing(_: Answer) {}
