//! The two files of a store, changed together.
//!
//! A change is first written whole into one new file beside the records: new
//! records and new pool, the log. It gets its name `RECORDS.tj-log` once the disk
//! has its bytes. That is the moment of the change.
//!
//! * Before it, a command that fails or is stopped has changed nothing, and no
//!   byte of the change has left the side of the records, which is trusted. So
//!   the next change may use the same versions again.
//! * Once the disk has the name, the change is sure to happen. It is only ever
//!   carried forward, never back: the new pool takes the old one's place, then
//!   the new records, then the log goes.
//! * Commands that come while a log is there read from it. A changing command
//!   makes its change on what the log holds; its own log takes the place of the
//!   one before, and it carries both.
//!
//! A log counts for the pool that it was made on (`Log::is_of`), and is carried to
//! no other file: another pool, a copy too, or one that is ahead of the log, is
//! judged by the records of the log, and not changed.

use crate::failure::{Failure, DENIED, EXISTS, LOCKED, MISSING};
use crate::files::{
    beside, check_plain, check_writable, is_there, read, read_if_there, remove, resolved_other,
    same, save, Folder, MOST_BYTES, MOST_RECORDS,
};
use crate::lock::{self, Lock};
use crate::log::{Lies, Log, MOST_LOG};
use crate::replace::New;
use std::fs;
use std::io::Read;
use std::path::{Path, PathBuf};
use std::time::{Duration, Instant};
use tjornsaki::Refusal;

/// The bytes of a store.
#[derive(Clone, PartialEq, Eq)]
pub struct Pair {
    pub pool: Vec<u8>,
    pub records: Vec<u8>,
}

/// Where a store lies, and how long to wait for its lock.
pub struct Place {
    pool: PathBuf,
    records: PathBuf,
    log: PathBuf,
    lock: PathBuf,
    wait: Duration,
    /// The pool and the records as they were named.
    named: [PathBuf; 2],
}

/// A store as found. The pool's file is read once.
#[derive(PartialEq, Eq)]
struct Found {
    pair: Pair,
    /// What the pool's file holds, if it is there and can be read.
    file: Option<Vec<u8>>,
    waits: Waits,
}

/// Whether a log waits to be carried on.
#[derive(PartialEq, Eq)]
enum Waits {
    Nothing,
    /// A change of this pool.
    Here,
    /// A change of another pool, at this path.
    Elsewhere(PathBuf),
}

impl Place {
    pub fn new(pool: &Path, records: &Path, wait: Duration) -> Result<Place, Failure> {
        let named = [pool, records].map(Path::to_path_buf);
        let (pool, records) = (resolved_other(pool)?, resolved_other(records)?);
        if pool == records {
            return Err(Failure::usage("the pool and the records must be two files"));
        }
        let (log, lock) = (beside(&records, ".tj-log"), beside(&records, ".tj-lock"));
        Ok(Place { pool, records, log, lock, wait, named })
    }

    /// The store as it is now.
    pub fn load(&self) -> Result<Pair, Failure> {
        self.check_present()?;
        let lock = lock::shared(&self.lock, &self.records, self.wait)?;
        let found = if lock.is_some() { self.find() } else { self.find_unlocked() };
        found.map(|found| found.pair)
    }

    /// Makes a change in memory and then in both files, if it is not refused.
    pub fn change<T>(
        &self,
        call: impl FnOnce(&mut Pair) -> Result<T, Refusal>,
    ) -> Result<T, Failure> {
        self.check_present()?;
        let _lock = self.lock_alone()?;
        let found = self.find()?;
        self.check_files(&found.waits)?;
        let mut pair = found.pair.clone();
        let value = call(&mut pair)?;
        self.check_log(&found.waits)?;
        if pair != found.pair {
            self.replace(pair, found.file.as_deref())?;
        } else if found.waits == Waits::Here {
            let (pool, records) = self.begin(&pair)?;
            self.carry(&Folder::of(&self.log)?, pool, records, &pair)?;
        }
        Ok(value)
    }

    /// Makes both files anew; files that exist are only replaced by `force`.
    pub fn make(&self, pair: Pair, force: bool) -> Result<(), Failure> {
        let lock = self.lock_alone()?;
        let made = self.check_replaceable(force).and_then(|()| {
            let file = read_if_there(&self.pool, MOST_BYTES)?;
            self.replace(pair, file.as_deref())
        });
        if made.is_err() && !self.records.exists() && !self.log.exists() {
            lock.take_away();
        }
        made
    }

    /// Writes an output file, which must not be one of the store's own.
    pub fn save(&self, path: &Path, bytes: &mut dyn Read) -> Result<(), Failure> {
        if [&self.pool, &self.records].iter().any(|own| same(own, path)) {
            let words = format!("{} belongs to the store", path.display());
            return Err(Failure::usage(words));
        }
        save(path, bytes)
    }

    fn lock_alone(&self) -> Result<Lock, Failure> {
        lock::alone(&self.lock, &self.records, self.wait)
    }

    /// Fails if a file is missing or is no file, before a lock file is made.
    fn check_present(&self) -> Result<(), Failure> {
        if is_there(&self.log)? {
            return check_plain(&self.log);
        }
        let (pool, records) = (is_there(&self.pool)?, is_there(&self.records)?);
        if !pool || !records {
            return Err(self.missing(pool, records));
        }
        check_plain(&self.records)?;
        check_plain(&self.pool)
    }

    /// What is missing, and what to do: only where both are is it a new store.
    fn missing(&self, pool: bool, records: bool) -> Failure {
        let (pool_name, records_name) = (self.pool.display(), self.records.display());
        let words = match (pool, records) {
            (true, false) => format!(
                "{records_name} is missing, and without its records nothing in {pool_name} can be \
                 checked: name them with --records, or bring them back from a copy"
            ),
            (false, true) => {
                format!("{pool_name} is missing: name it with --pool, or bring it back from a copy")
            }
            _ => format!("{records_name} is missing; `tjornsaki init` makes a store"),
        };
        Failure::Other(MISSING, words)
    }

    /// The store by its log, if one waits, else by both files. A log counts once
    /// the disk has its name.
    fn find(&self) -> Result<Found, Failure> {
        let log = match read_if_there(&self.log, MOST_LOG)? {
            Some(bytes) => Log::parse(&bytes, &self.log)?,
            None => {
                let (records, pool) = (read(&self.records)?, read(&self.pool)?);
                let file = Some(pool.clone());
                return Ok(Found { pair: Pair { pool, records }, file, waits: Waits::Nothing });
            }
        };
        self.settle()?;
        let file = read_if_there(&self.pool, MOST_BYTES);
        let lies = match &file {
            Ok(Some(bytes)) => Lies::Bytes(bytes),
            Ok(None) => Lies::Nothing,
            Err(_) => Lies::Unreadable,
        };
        if log.is_of(&self.log, &self.pool, lies) {
            let file = file.unwrap_or(None);
            return Ok(Found { pair: log.pair, file, waits: Waits::Here });
        }
        let pool = file?.ok_or_else(|| self.missing(false, true))?;
        let (file, waits) = (Some(pool.clone()), Waits::Elsewhere(log.pool));
        Ok(Found { pair: Pair { pool, records: log.pair.records }, file, waits })
    }

    /// Waits until the disk has the log's name. A reader who may not open the
    /// folder cannot.
    fn settle(&self) -> Result<(), Failure> {
        match Folder::of(&self.log) {
            Err(Failure::Other(DENIED, _)) => Ok(()),
            folder => folder?.sync(),
        }
    }

    /// The same without a lock: what is found twice was not changed meanwhile, for
    /// a change first makes a log, and then other records.
    fn find_unlocked(&self) -> Result<Found, Failure> {
        let start = Instant::now();
        loop {
            let found = self.find()?;
            if found == self.find()? {
                return Ok(found);
            }
            if start.elapsed() > self.wait {
                let words = "the store is changed again and again, and cannot be locked";
                return Err(Failure::Other(LOCKED, words.into()));
            }
        }
    }

    /// Fails if a file may not be written.
    fn check_files(&self, waits: &Waits) -> Result<(), Failure> {
        for path in [&self.records, &self.pool] {
            if *waits == Waits::Nothing || is_there(path)? {
                check_writable(path)?;
            }
        }
        Ok(())
    }

    /// Fails if a log waits for another pool.
    fn check_log(&self, waits: &Waits) -> Result<(), Failure> {
        let other = match waits {
            Waits::Elsewhere(other) => other.display(),
            _ => return Ok(()),
        };
        let (log, pool) = (self.log.display(), self.pool.display());
        let words = format!(
            "{log} holds a change of the pool {other}, and {pool} is another: until that change is \
             carried on, no other is made"
        );
        Err(Failure::Other(EXISTS, words))
    }

    /// Fails if something is there that `init` is not to replace, or that is too
    /// long for a part of a store.
    fn check_replaceable(&self, force: bool) -> Result<(), Failure> {
        for named in &self.named {
            if fs::symlink_metadata(named).map_or(false, |about| about.file_type().is_symlink()) {
                let words = format!("{} is a link; init replaces no file", named.display());
                return Err(Failure::Other(EXISTS, words + " through one"));
            }
        }
        let (pool, records) = (Some(MOST_BYTES), Some(MOST_RECORDS));
        for (path, most) in [(&self.pool, pool), (&self.records, records), (&self.log, None)] {
            let name = path.display();
            if !is_there(path)? {
                continue;
            }
            if !force {
                let words = "`tjornsaki init --help` says what replacing it loses";
                return Err(Failure::Other(EXISTS, format!("{name} exists; {words}")));
            }
            check_writable(path)?;
            match most {
                Some(most) if read(path)?.len() as u64 > most => {
                    let words = format!("{name} is too long for a part of a store");
                    return Err(Failure::Other(EXISTS, words));
                }
                _ => (),
            }
        }
        Ok(())
    }

    /// Both files at once, as the head of this file tells. The pool's file holds
    /// these bytes until then.
    fn replace(&self, pair: Pair, file: Option<&[u8]>) -> Result<(), Failure> {
        let (pool, records) = self.begin(&pair)?;
        let log = Log::new(pair, &self.log, &self.pool, file);
        let folder = New::like(&self.log, &self.records)?.put_unsettled(&log.bytes())?;
        self.carry(&folder, pool, records, &log.pair).map_err(|failure| {
            failure.after(Some("the change is made, and the next change carries it on"))
        })
    }

    /// Files for the new pool and the new records, with room and no bytes yet:
    /// what cannot be written fails before anything is changed.
    fn begin(&self, pair: &Pair) -> Result<(New, New), Failure> {
        let pool = New::begin(&self.pool, pair.pool.len())?;
        Ok((pool, New::begin(&self.records, pair.records.len())?))
    }

    /// Carries the log in a folder forward. Only once the disk has its name does a
    /// byte of it go to the pool's side. A log that the disk brings back after it
    /// went holds what the files hold.
    fn carry(&self, folder: &Folder, pool: New, records: New, pair: &Pair) -> Result<(), Failure> {
        folder.sync()?;
        pool.put(&pair.pool)?;
        records.put(&pair.records)?;
        remove(&self.log)
    }
}
