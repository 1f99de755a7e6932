//! A new file that takes the place of an old one, with its owner and its mode.
//!
//! It is begun beside the old one, under a name of its own and with nothing in it
//! but room. Then it gets its bytes, the disk has them, and it takes the old
//! one's name at once: nobody ever sees half of it. A new file that is given up
//! goes away.
//!
//! Where owner and group cannot be kept, since the old file belongs to somebody
//! else and this is not root's command, and where its folder may not be written,
//! the old file is written over instead.
//!
//! A rename can be done and yet be reported as failed, on network storage say.
//! So after a failure it is looked which file has the name.

use crate::failure::{Failure, DENIED};
use crate::files::{
    beside, check_plain, is_there, keep_owner, names, open_plain_to_write, remove, Folder,
};
use crate::kernel;
use std::fs::{self, File, OpenOptions};
use std::io::{self, Read, Write};
use std::os::unix::fs::OpenOptionsExt;
use std::path::{Path, PathBuf};

/// Tries at a name.
const TRIES: u32 = 100;

/// A file begun, or an old one to be written over.
pub struct New {
    file: File,
    folder: Folder,
    path: PathBuf,
    staged: Staged,
}

/// The name of a new file until it takes the place of the old one, if it is to.
/// A file that is given up goes.
struct Staged(Option<PathBuf>);

impl Drop for Staged {
    fn drop(&mut self) {
        if let Some(staged) = &self.0 {
            let _ = remove(staged);
        }
    }
}

impl New {
    /// Begins a file of the store, with room for so many bytes.
    pub fn begin(path: &Path, size: usize) -> Result<New, Failure> {
        let new = New::like(path, path)?;
        if let Some(staged) = &new.staged.0 {
            let failed = |error| Failure::file("write", staged, &error);
            kernel::reserve(&new.file, size).map_err(failed)?;
        }
        Ok(new)
    }

    /// The same without room, and with the owner and the mode of another file.
    /// Whatever has the first name that is tried was left by a command that was
    /// stopped, and is taken away; where that cannot be done, in a folder of
    /// others say, the next name is tried.
    pub fn like(path: &Path, like: &Path) -> Result<New, Failure> {
        let name = |attempt| match attempt {
            0 => beside(path, ".tj-new"),
            _ => beside(path, &format!(".tj-new-{attempt}")),
        };
        New::named(path, like, name, |staged| {
            let _ = remove(staged);
        })
    }

    /// Begins an output file. Nothing is taken away.
    pub fn unique(path: &Path) -> Result<New, Failure> {
        let mine = std::process::id();
        let name = |attempt| beside(path, &format!(".tj-out-{mine}-{attempt}"));
        New::named(path, path, name, |_| ())
    }

    fn named(
        path: &Path,
        like: &Path,
        name: impl Fn(u32) -> PathBuf,
        clear: impl Fn(&Path),
    ) -> Result<New, Failure> {
        check_plain(path)?;
        let (folder, path_there) = (Folder::of(path)?, path == like && is_there(path)?);
        let path = path.to_path_buf();
        match create(is_there(like)?, name, clear) {
            Ok((file, staged)) => {
                // A log has no old file: its maker's owner will do.
                let kept = keep_owner(&file, like).is_ok() || !path_there;
                if kept {
                    return Ok(New { file, folder, path, staged });
                }
            }
            Err(Failure::Other(DENIED, _)) if path_there => (),
            Err(failure) => return Err(failure),
        }
        Ok(New { file: open_plain_to_write(&path)?, folder, path, staged: Staged(None) })
    }

    /// Gives it its bytes, and lets it take the place of the old file, which the
    /// disk then has.
    pub fn put(self, bytes: &[u8]) -> Result<(), Failure> {
        self.put_unsettled(bytes)?.sync()
    }

    /// The same with bytes that come in pieces.
    pub fn put_pieces(mut self, bytes: &mut dyn Read) -> Result<(), Failure> {
        let written = io::copy(bytes, &mut self.file);
        self.finish(written)?.sync()
    }

    /// The same as `put`, but the disk may still lose the new name, until its
    /// folder is synced.
    pub fn put_unsettled(mut self, bytes: &[u8]) -> Result<Folder, Failure> {
        let written = self.file.write_all(bytes);
        self.finish(written.map(|()| bytes.len() as u64))
    }

    /// Once so many bytes are written: nothing follows them, the disk has them,
    /// and the file takes its name.
    fn finish(mut self, written: io::Result<u64>) -> Result<Folder, Failure> {
        let cut = |size| self.file.set_len(size).and_then(|()| self.file.sync_all());
        written.and_then(cut).map_err(|error| {
            let path = self.staged.0.as_deref().unwrap_or(&self.path);
            Failure::file("write", path, &error)
        })?;
        if let Some(staged) = self.staged.0.take() {
            self.rename(&staged)?;
        }
        Ok(self.folder)
    }

    /// Takes the old file's name, and after a failure looks again.
    fn rename(&self, staged: &Path) -> Result<(), Failure> {
        let error = match fs::rename(staged, &self.path) {
            Ok(()) => return Ok(()),
            Err(error) => Failure::file("replace", &self.path, &error),
        };
        match names(&self.path, &self.file) {
            Ok(true) => Ok(()),
            Ok(false) if fs::remove_file(staged).is_ok() => Err(error),
            _ => Err(error.with("it may have been done all the same")),
        }
    }
}

/// Makes a file under the first name that can be had; a private one can only be
/// read by its maker.
fn create(
    private: bool,
    name: impl Fn(u32) -> PathBuf,
    clear: impl Fn(&Path),
) -> Result<(File, Staged), Failure> {
    let mut options = OpenOptions::new();
    options.write(true).create_new(true);
    if private {
        options.mode(0o600);
    }
    let mut last = io::Error::from(io::ErrorKind::AlreadyExists);
    for staged in (0..TRIES).map(&name) {
        clear(&staged);
        match options.open(&staged) {
            Ok(file) => return Ok((file, Staged(Some(staged)))),
            Err(error) if error.kind() == io::ErrorKind::AlreadyExists => last = error,
            Err(error) => return Err(Failure::file("write", &staged, &error)),
        }
    }
    Err(Failure::file("write", &name(0), &last))
}
