//! Steps on single files: names, reading one whole, and what a file must be.

use crate::failure::{Failure, BROKEN, DENIED};
use crate::kernel;
use crate::replace::New;
use std::ffi::OsString;
use std::fs::{self, File, Metadata, OpenOptions, Permissions};
use std::io::{self, Read};
use std::os::unix::ffi::OsStrExt;
use std::os::unix::fs::{MetadataExt, OpenOptionsExt, PermissionsExt};
use std::path::{Path, PathBuf};

/// No file of a store, and no input that fits into one, is longer. What is
/// longer is read up to one byte more, which the store then refuses.
pub const MOST_BYTES: u64 = (tjornsaki::BLOCK_BYTES * tjornsaki::MOST_SLOTS) as u64;

/// No records are longer.
pub const MOST_RECORDS: u64 = (tjornsaki::RECORD_BYTES * tjornsaki::MOST_SLOTS) as u64;

/// Flags of the kernel for opening a file: wait for nobody; follow no link.
const AT_ONCE: i32 = 0o4000;
const NO_LINK: i32 = 0o400000;

/// Every name that the command line makes for itself has this in it.
pub const OWN: &str = ".tj-";

/// Reads a file of a store, up to one byte more than fits into one.
pub fn read(path: &Path) -> Result<Vec<u8>, Failure> {
    read_most(path, MOST_BYTES)
}

/// The same where the file may be missing.
pub fn read_if_there(path: &Path, most: u64) -> Result<Option<Vec<u8>>, Failure> {
    if is_there(path)? {
        read_most(path, most).map(Some)
    } else {
        Ok(None)
    }
}

/// It must be a plain file, also if somebody lays something else there at this
/// moment: to open a pipe waits for nobody.
fn read_most(path: &Path, most: u64) -> Result<Vec<u8>, Failure> {
    let failed = |error| Failure::file("read", path, &error);
    let file = OpenOptions::new().read(true).custom_flags(AT_ONCE).open(path).map_err(failed)?;
    let about = file.metadata().map_err(failed)?;
    check_is_plain(path, &about)?;
    up_to(file, most, about.len()).map_err(failed)
}

/// Everything of an input, up to one byte more than fits into a store.
pub fn up_to_most(input: impl Read) -> io::Result<Vec<u8>> {
    up_to(input, MOST_BYTES, 0)
}

/// The same for any most; so many bytes are expected.
fn up_to(input: impl Read, most: u64, expected: u64) -> io::Result<Vec<u8>> {
    let mut bytes = Vec::with_capacity(expected.min(most) as usize + 1);
    input.take(most + 1).read_to_end(&mut bytes)?;
    Ok(bytes)
}

/// The path with an ending added to its last name.
pub fn beside(path: &Path, ending: &str) -> PathBuf {
    let mut name = OsString::from(path);
    name.push(ending);
    PathBuf::from(name)
}

/// Where the bytes of this path lie, with links followed, or would lie if
/// there is no such file yet. It is a whole path, from the root on.
pub fn resolved(path: &Path) -> PathBuf {
    let in_folder = || {
        let folder = fs::canonicalize(folder_of(path)).ok()?;
        path.file_name().map(|name| folder.join(name))
    };
    let from_here = || std::env::current_dir().map_or_else(|_| path.into(), |here| here.join(path));
    fs::canonicalize(path).ok().or_else(in_folder).unwrap_or_else(from_here)
}

fn folder_of(path: &Path) -> &Path {
    match path.parent() {
        Some(folder) if !folder.as_os_str().is_empty() => folder,
        _ => Path::new("."),
    }
}

/// Whether two paths name one file.
pub fn same(one: &Path, other: &Path) -> bool {
    one == other || resolved(one) == resolved(other)
}

/// The path with links followed; fails if the command line could make a file of
/// that name, or of the one given, for itself.
pub fn resolved_other(path: &Path) -> Result<PathBuf, Failure> {
    let own = |path: &Path| {
        let name = path.file_name().map_or(&b""[..], OsStrExt::as_bytes);
        name.windows(OWN.len()).any(|part| part == OWN.as_bytes())
    };
    let real = resolved(path);
    if own(path) || own(&real) {
        let words = "names with `.tj-` in them are the store's own, for its lock and its log";
        return Err(Failure::usage(format!("{} belongs to the store: {words}", path.display())));
    }
    Ok(real)
}

/// Whether there is something of this name.
pub fn is_there(path: &Path) -> Result<bool, Failure> {
    match fs::metadata(path) {
        Ok(_) => Ok(true),
        Err(error) if error.kind() == io::ErrorKind::NotFound => Ok(false),
        Err(error) => Err(Failure::file("find", path, &error)),
    }
}

/// Fails if there is something else than a plain file, a pipe say.
pub fn check_plain(path: &Path) -> Result<(), Failure> {
    fs::metadata(path).map_or(Ok(()), |about| check_is_plain(path, &about))
}

fn check_is_plain(path: &Path, about: &Metadata) -> Result<(), Failure> {
    if about.is_file() {
        return Ok(());
    }
    Err(Failure::Other(BROKEN, format!("{} is not a plain file", path.display())))
}

/// Fails unless the file is a plain one that may be written. A new file could
/// take the place of a read-only one; that is not what its owner wants.
pub fn check_writable(path: &Path) -> Result<(), Failure> {
    let failed = |error| Failure::file("write", path, &error);
    let about = fs::metadata(path).map_err(failed)?;
    check_is_plain(path, &about)?;
    if about.permissions().readonly() {
        return Err(Failure::Other(DENIED, format!("{} is read-only", path.display())));
    }
    open_plain_to_write(path).map(|_| ())
}

/// Opens a file that is there to write over it. Whoever lays a link or a pipe
/// there at this moment gets nothing.
pub fn open_plain_to_write(path: &Path) -> Result<File, Failure> {
    let failed = |error| Failure::file("write", path, &error);
    let mut options = OpenOptions::new();
    let file = options.write(true).custom_flags(AT_ONCE | NO_LINK).open(path).map_err(failed)?;
    check_is_plain(path, &file.metadata().map_err(failed)?)?;
    Ok(file)
}

/// Whether a path names an open file.
pub fn names(path: &Path, file: &File) -> io::Result<bool> {
    let mine = file.metadata()?;
    match fs::metadata(path) {
        Ok(named) => Ok((mine.dev(), mine.ino()) == (named.dev(), named.ino())),
        Err(error) if error.kind() == io::ErrorKind::NotFound => Ok(false),
        Err(error) => Err(error),
    }
}

/// Gives a new file the owner, the group and the mode of another, if that is
/// there. Where the owner cannot be kept, the group and the mode are, and the
/// failure is told; where the group cannot, it gets no rights.
pub fn keep_owner(file: &File, like: &Path) -> io::Result<()> {
    const AS_IT_IS: u32 = u32::MAX;
    let wanted = match fs::metadata(like) {
        Ok(wanted) => wanted,
        Err(_) => return Ok(()),
    };
    let found = file.metadata()?;
    let mut kept = Ok(());
    if (found.uid(), found.gid()) != (wanted.uid(), wanted.gid()) {
        kept = kernel::give(file, wanted.uid(), wanted.gid());
    }
    let group = kept.is_ok() || kernel::give(file, AS_IT_IS, wanted.gid()).is_ok();
    let mode = wanted.mode() & if group { 0o777 } else { 0o707 };
    file.set_permissions(Permissions::from_mode(mode))?;
    kept
}

/// An open folder, to wait until the disk has the names in it.
pub struct Folder {
    file: File,
    path: PathBuf,
}

impl Folder {
    /// The folder in which a path lies.
    pub fn of(path: &Path) -> Result<Folder, Failure> {
        let path = folder_of(path).to_path_buf();
        let file = File::open(&path).map_err(|error| Failure::file("open", &path, &error))?;
        Ok(Folder { file, path })
    }

    pub fn sync(&self) -> Result<(), Failure> {
        match self.file.sync_all() {
            // Some file systems know nothing to wait for.
            Err(error) if error.kind() != io::ErrorKind::InvalidInput => {
                Err(Failure::file("write", &self.path, &error))
            }
            _ => Ok(()),
        }
    }
}

/// Takes a file away if it is there.
pub fn remove(path: &Path) -> Result<(), Failure> {
    match fs::remove_file(path) {
        Err(error) if error.kind() != io::ErrorKind::NotFound => {
            Err(Failure::file("remove", path, &error))
        }
        _ => Ok(()),
    }
}

/// Writes an output file, in pieces as its bytes come: as a whole or not at all,
/// unless it is a device, a pipe, or a file of another user or in another user's
/// folder.
pub fn save(path: &Path, bytes: &mut dyn Read) -> Result<(), Failure> {
    let failed = |error| Failure::file("write", path, &error);
    let real = resolved_other(path)?;
    match fs::metadata(&real) {
        Ok(about) if !about.is_file() => {
            let mut file = OpenOptions::new().write(true).open(path).map_err(failed)?;
            return io::copy(bytes, &mut file).map(|_| ()).map_err(failed);
        }
        Ok(_) => check_writable(&real)?,
        Err(_) => (),
    }
    New::unique(&real)?.put_pieces(bytes)
}

#[cfg(test)]
mod tests {
    use super::*;

    /// Somebody lays a link where a file is to be written over.
    #[test]
    fn nothing_is_written_through_a_link() {
        let folder = std::env::temp_dir().join(format!("tjornsaki-link-{}", std::process::id()));
        fs::create_dir(&folder).unwrap();
        let (file, link) = (folder.join("file"), folder.join("link"));
        fs::write(&file, b"precious").unwrap();
        std::os::unix::fs::symlink(&file, &link).unwrap();
        let found =
            [open_plain_to_write(&file), open_plain_to_write(&link)].map(|file| file.is_ok());
        fs::remove_dir_all(&folder).unwrap();
        assert_eq!(found, [true, false]);
    }
}
