//! Calls of the kernel that the standard library of older compilers lacks, and
//! one look before Rust's own start. This is the only module of the command
//! line with unsafe code.
#![allow(unsafe_code)]

use std::fs::File;
use std::io;
use std::os::unix::io::AsRawFd;
use std::sync::atomic::{AtomicBool, Ordering};

extern "C" {
    fn flock(file: i32, operation: i32) -> i32;
    fn fchown(file: i32, owner: u32, group: u32) -> i32;
    fn fcntl(file: i32, command: i32, ...) -> i32;
    fn posix_fallocate(file: i32, from: i64, size: i64) -> i32;
}

#[derive(Clone, Copy)]
pub enum Hold {
    Shared = 1,
    Alone = 2,
}

/// Locks an open file, or fails at once where another command holds it.
pub fn lock(file: &File, hold: Hold) -> io::Result<()> {
    const AT_ONCE: i32 = 4;
    done(unsafe { flock(file.as_raw_fd(), hold as i32 | AT_ONCE) })
}

/// Gives an open file to a user and a group.
pub fn give(file: &File, owner: u32, group: u32) -> io::Result<()> {
    done(unsafe { fchown(file.as_raw_fd(), owner, group) })
}

/// Takes room on the disk for so many bytes, where the disk can say so.
pub fn reserve(file: &File, size: usize) -> io::Result<()> {
    const CANNOT_SAY: [i32; 2] = [22, 95];
    match unsafe { posix_fallocate(file.as_raw_fd(), 0, size as i64) } {
        0 => Ok(()),
        number if CANNOT_SAY.contains(&number) => Ok(()),
        number => Err(io::Error::from_raw_os_error(number)),
    }
}

fn done(answer: i32) -> io::Result<()> {
    match answer {
        0 => Ok(()),
        _ => Err(io::Error::last_os_error()),
    }
}

static OUTPUT_CLOSED: AtomicBool = AtomicBool::new(false);

/// Whether standard output was closed when the program started.
pub fn output_was_closed() -> bool {
    OUTPUT_CLOSED.load(Ordering::Relaxed)
}

/// Rust opens a closed standard output anew, as a file that swallows all, before
/// it calls `main`. So the C library is asked to call this one still earlier.
extern "C" fn look_at_output() {
    const OUTPUT: i32 = 1;
    const FLAGS: i32 = 1;
    let closed = unsafe { fcntl(OUTPUT, FLAGS) } == -1;
    OUTPUT_CLOSED.store(closed, Ordering::Relaxed);
}

#[used]
#[link_section = ".init_array"]
static LOOK_FIRST: extern "C" fn() = look_at_output;
