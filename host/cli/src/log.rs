//! The log: a change that is sure to happen, whole, in one file beside the
//! records.
//!
//! | bytes | meaning |
//! |---|---|
//! | 16 | mark |
//! | 8 | number of slots |
//! | 8 | the sum over the pool's file from before the change, 0 if there was none |
//! | 12 for each slot | new records |
//! | 64 for each slot | new pool |
//! | the rest | where the log lies, a zero byte, and where the pool's file does |
//!
//! A log of ours always passes the store's own audit; what does not is no log.

use crate::failure::{Failure, BROKEN};
use crate::files::MOST_BYTES;
use crate::layout::{block, records, Block, Record};
use crate::pair::Pair;
use std::ffi::OsStr;
use std::os::unix::ffi::OsStrExt;
use std::path::{Path, PathBuf};
use tjornsaki::{BLOCK_BYTES, RECORD_BYTES};

const MARK: &[u8; 16] = b"tjornsaki log 1\n";
const HEAD: usize = 32;

/// No log is longer: records and path together are shorter than a pool can be.
pub const MOST_LOG: u64 = 2 * MOST_BYTES;

/// A change that waits to be carried to the pool.
#[derive(PartialEq, Eq)]
pub struct Log {
    pub pair: Pair,
    /// Where it was made.
    home: PathBuf,
    /// Where the pool lies that it was made on.
    pub pool: PathBuf,
    /// The sum over that pool's file before the change.
    before: u64,
}

/// What lies where a pool is looked for.
#[derive(Clone, Copy)]
pub enum Lies<'a> {
    Bytes(&'a [u8]),
    Nothing,
    Unreadable,
}

impl Log {
    /// A change of the pool's file at a path, with what that file held.
    pub fn new(pair: Pair, home: &Path, pool: &Path, file: Option<&[u8]>) -> Log {
        let (home, pool) = (home.to_path_buf(), pool.to_path_buf());
        Log { pair, home, pool, before: file.map_or(0, sum) }
    }

    pub fn bytes(&self) -> Vec<u8> {
        let slots = (self.pair.records.len() / RECORD_BYTES) as u64;
        let head = [&MARK[..], &slots.to_le_bytes(), &self.before.to_le_bytes()].concat();
        let [home, pool] = [&self.home, &self.pool].map(|path| path.as_os_str().as_bytes());
        [&head[..], &self.pair.records, &self.pair.pool, home, b"\0", pool].concat()
    }

    /// The log in the bytes of a file.
    pub fn parse(bytes: &[u8], path: &Path) -> Result<Log, Failure> {
        let log = parts(bytes).filter(|log| {
            let Pair { pool, records } = &log.pair;
            tjornsaki::audit(pool, records).is_ok()
        });
        log.ok_or_else(|| {
            let words = "is no log that this version knows, or it is damaged: while it is there, \
                         nothing is read or changed";
            Failure::Other(BROKEN, format!("{} {words}", path.display()))
        })
    }

    /// Whether the change was made on the pool's file at this path, as seen from a
    /// log that lies at `home`.
    ///
    /// A file that holds the pool from before the change or from after it, or that
    /// is not there yet, is the one if it lies at its place; and also elsewhere if
    /// the log itself was moved or copied, or nothing lies at that place any more.
    /// At its place it is the one whatever it holds, unless that is ahead of the log,
    /// which then is an old one that somebody brought back.
    pub fn is_of(&self, home: &Path, path: &Path, lies: Lies<'_>) -> bool {
        let known = match lies {
            Lies::Bytes(file) => sum(file) == self.before || file == self.pair.pool,
            Lies::Nothing => true,
            Lies::Unreadable => false,
        };
        if self.home == home && self.pool == path {
            known || !matches!(lies, Lies::Bytes(file) if ahead(file, &self.pair.records))
        } else {
            known && (self.home != home || !self.pool.exists())
        }
    }
}

/// Whether a block is at a later version than its record.
fn ahead(pool: &[u8], record_bytes: &[u8]) -> bool {
    let later = |(slot, record): (usize, &Record)| {
        let claims = |block: Block<'_>| {
            let own = block.marked() && block.slot() == slot as u64;
            own && block.version() > record.version
        };
        block(pool, slot).map_or(false, claims)
    };
    records(record_bytes).iter().enumerate().any(later)
}

fn parts(bytes: &[u8]) -> Option<Log> {
    let slots = number(bytes.get(16..24)?)?;
    let before = number(bytes.get(24..HEAD)?)?;
    let slots = usize::try_from(slots).ok().filter(|slots| *slots <= tjornsaki::MOST_SLOTS)?;
    let rest = bytes.strip_prefix(MARK)?.get(HEAD - MARK.len()..)?;
    let records = rest.get(..slots * RECORD_BYTES)?;
    let rest = &rest[records.len()..];
    let pool = rest.get(..slots * BLOCK_BYTES)?;
    let mut paths = rest[pool.len()..].splitn(2, |byte| *byte == 0);
    let mut path = || paths.next().map(|path| PathBuf::from(OsStr::from_bytes(path)));
    let (home, at) = (path()?, path()?);
    let pair = Pair { pool: pool.to_vec(), records: records.to_vec() };
    Some(Log { pair, home, pool: at, before })
}

fn number(bytes: &[u8]) -> Option<u64> {
    bytes.try_into().ok().map(u64::from_le_bytes)
}

/// A sum by which a file is known again (FNV-1a). It guards against mistakes
/// only: who meets it on purpose has the new pool written over his own file.
fn sum(bytes: &[u8]) -> u64 {
    let step = |sum: u64, byte: &u8| (sum ^ u64::from(*byte)).wrapping_mul(0x100_0000_01b3);
    bytes.iter().fold(0xcbf2_9ce4_8422_2325, step)
}

#[cfg(test)]
mod tests {
    use super::*;

    const PATHS: &str = "/nowhere/log\0/nowhere/pool";

    fn log() -> Log {
        let (mut pool, mut records) = tjornsaki::room(3);
        tjornsaki::wipe(&mut pool, &mut records).unwrap();
        tjornsaki::create(&mut pool, &mut records).unwrap();
        let (home, at) = (Path::new("/nowhere/log"), Path::new("/nowhere/pool"));
        Log::new(Pair { pool, records }, home, at, Some(b"before"))
    }

    /// Whether the log, at a place, is of a pool, at a place, with what lies there.
    fn is_of(home: &str, pool: &str, lies: Lies<'_>) -> bool {
        log().is_of(Path::new(home), Path::new(pool), lies)
    }

    #[test]
    fn bytes_and_back() {
        let bytes = log().bytes();
        let found = Log::parse(&bytes, Path::new("log")).ok().unwrap();
        assert!(found == log() && found.bytes() == bytes && bytes.ends_with(PATHS.as_bytes()));
    }

    #[test]
    fn no_part_of_a_log_is_one() {
        let bytes = log().bytes();
        let whole = bytes.len() - "/nowhere/pool".len();
        assert!((0..whole).all(|size| Log::parse(&bytes[..size], Path::new("log")).is_err()));
        let other = |place: usize| {
            let mut other = bytes.clone();
            other[place] ^= 1;
            Log::parse(&other, Path::new("log")).is_err()
        };
        assert!((0..24).chain(HEAD..HEAD + 2).chain([HEAD + 36]).all(other));
    }

    #[test]
    fn it_knows_its_pool() {
        let after = log().pair.pool;
        let mut ahead = after.clone();
        ahead[8] += 1;
        let [before, after, ahead, other] =
            [b"before", &after[..], &ahead, b"other"].map(Lies::Bytes);
        // At its place; then elsewhere, or seen from a log that was moved.
        let cases = [
            (before, true, true),
            (after, true, true),
            (Lies::Nothing, true, true),
            (other, true, false),
            (Lies::Unreadable, true, false),
            (ahead, false, false),
        ];
        for (lies, here, elsewhere) in cases {
            assert_eq!(is_of("/nowhere/log", "/nowhere/pool", lies), here);
            assert_eq!(is_of("/nowhere/log", "/elsewhere/pool", lies), elsewhere);
            assert_eq!(is_of("/elsewhere/log", "/nowhere/pool", lies), elsewhere);
        }
    }

    #[test]
    fn a_copy_is_not_its_pool() {
        let log = Log { pool: std::env::current_exe().unwrap(), ..log() };
        let (home, copy) = (Path::new("/nowhere/log"), Path::new("/elsewhere/pool"));
        let copied = Path::new("/elsewhere/log");
        for lies in [Lies::Bytes(b"before"), Lies::Nothing] {
            assert!(!log.is_of(home, copy, lies) && log.is_of(copied, copy, lies));
        }
    }
}
