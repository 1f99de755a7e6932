//! The lock on a store: the kernel's lock on a small file beside the records.
//!
//! The kernel lets go of it when the command ends, however it ends, so none is
//! ever left behind. The file itself stays, but for an `init` that fails. Who
//! gets the lock looks whether the file still has its name, and if not begins
//! again, so that two commands never hold locks on two files.

use crate::failure::{Failure, LOCKED};
use crate::files::{keep_owner, names, remove};
use crate::kernel::{self, Hold};
use std::fs::{File, OpenOptions};
use std::io;
use std::path::{Path, PathBuf};
use std::thread::sleep;
use std::time::{Duration, Instant};

/// Between two tries.
const PAUSE: Duration = Duration::from_millis(10);

/// Holds the store until it is dropped.
pub struct Lock {
    file: File,
    path: PathBuf,
    /// Whether the file was not there before.
    made: bool,
}

impl Lock {
    /// Takes the file away again if this command made it.
    pub fn take_away(self) {
        if self.made {
            let _ = remove(&self.path);
        }
    }
}

/// The lock of a command that changes the store: nobody else has any. The file
/// belongs to whom the records belong.
pub fn alone(path: &Path, records: &Path, wait: Duration) -> Result<Lock, Failure> {
    take(path, records, Hold::Alone, wait)?
        .map_err(|error| Failure::file("open the lock", path, &error))
}

/// The lock of a command that only reads; none where its file cannot be opened or
/// made, as on a read-only disk.
pub fn shared(path: &Path, records: &Path, wait: Duration) -> Result<Option<Lock>, Failure> {
    take(path, records, Hold::Shared, wait).map(Result::ok)
}

/// Tries until the time is over. The inner failure is that of opening the file.
fn take(
    path: &Path,
    records: &Path,
    hold: Hold,
    wait: Duration,
) -> Result<io::Result<Lock>, Failure> {
    let start = Instant::now();
    loop {
        let lock = match open(path, records) {
            Ok(lock) => lock,
            Err(error) => return Ok(Err(error)),
        };
        match kernel::lock(&lock.file, hold) {
            Ok(()) if names(path, &lock.file).unwrap_or(false) => return Ok(Ok(lock)),
            Err(error) if error.kind() != io::ErrorKind::WouldBlock => {
                return Err(Failure::file("lock", path, &error));
            }
            _ => (),
        }
        if start.elapsed() >= wait {
            let words = format!("the store is locked by another command ({})", path.display());
            return Err(Failure::Other(LOCKED, words));
        }
        sleep(PAUSE);
    }
}

/// Opens the file, and makes it if need be. One that another user made and that
/// can only be read can be locked too.
fn open(path: &Path, records: &Path) -> io::Result<Lock> {
    let open = |options: &mut OpenOptions| options.read(true).append(true).open(path);
    let lock = |file, made| Lock { file, path: path.to_path_buf(), made };
    if let Ok(file) = open(OpenOptions::new().create_new(true)) {
        let _ = keep_owner(&file, records);
        return Ok(lock(file, true));
    }
    let file = open(OpenOptions::new().create(true));
    file.or_else(|error| File::open(path).map_err(|_| error)).map(|file| lock(file, false))
}
