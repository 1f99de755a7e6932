//! One command at a time.

use crate::support::{able_to_trace, skipped, Folder, CHANGING, READING};
use std::fs::{File, OpenOptions};
use std::os::unix::io::AsRawFd;
use std::process::Stdio;

extern "C" {
    fn flock(file: i32, operation: i32) -> i32;
}

const SHARED: i32 = 1;
const ALONE: i32 = 2;
const FREE: i32 = 8;

/// Locks the store as another command would, until the file is dropped.
fn lock(folder: &Folder, how: i32) -> File {
    let path = folder.file("store.records.tj-lock");
    let file = OpenOptions::new().append(true).open(path).unwrap();
    assert_eq!(unsafe { flock(file.as_raw_fd(), how) }, 0);
    file
}

/// Lets go of the lock by name: a program that another test starts at this moment
/// may have the file too.
fn free(file: &File) {
    assert_eq!(unsafe { flock(file.as_raw_fd(), FREE) }, 0);
}

#[test]
fn a_changing_command_keeps_all_others_out() {
    let folder = Folder::with_blob("locked");
    let before = folder.store();
    let held = lock(&folder, ALONE);
    for command in READING.iter().chain(&CHANGING) {
        let words = [*command, &["--wait", "0"]].concat();
        folder.run(&words).fails(75, "the store is locked by another command");
    }
    let words = ["init", "--force", "--forget-history", "--wait=0"];
    folder.run(&words).fails(75, "locked");
    assert_eq!(folder.store(), before);
    free(&held);
    folder.run(&["create"]).gives("4\n");
}

#[test]
fn reading_commands_go_together() {
    let folder = Folder::with_blob("locked_shared");
    let _held = lock(&folder, SHARED);
    for command in READING {
        assert_eq!(folder.run(command).status, 0);
    }
    for command in CHANGING {
        folder.run(&[command, &["--wait", "0"]].concat()).fails(75, "locked");
    }
}

#[test]
fn waiting_for_the_lock() {
    let folder = Folder::with_blob("locked_wait");
    let held = lock(&folder, ALONE);
    let mut command = folder.command();
    let waiting = command.args(["create", "--wait", "60"]).stdout(Stdio::piped()).spawn().unwrap();
    std::thread::sleep(std::time::Duration::from_millis(100));
    free(&held);
    assert_eq!(waiting.wait_with_output().unwrap().stdout, b"4\n");
}

#[test]
fn many_at_once() {
    let folder = Folder::with_store("many", 16);
    let start = |_| {
        let mut command = folder.command();
        command.args(["create", "--wait", "60"]).stdout(Stdio::piped()).spawn().unwrap()
    };
    let children: Vec<_> = (0..12).map(start).collect();
    let output = |child: std::process::Child| child.wait_with_output().unwrap().stdout;
    let number = |out: Vec<u8>| String::from_utf8(out).unwrap().trim().parse::<u32>().unwrap();
    let mut roots: Vec<u32> = children.into_iter().map(output).map(number).collect();
    roots.sort_unstable();
    assert_eq!(roots, (0..12).collect::<Vec<_>>());
    folder.run(&["audit"]).gives("sound: 12 of 16 slots in use\n");
}

/// Without a word about it, a command waits for as long as another one takes.
#[test]
fn a_second_of_patience() {
    let folder = Folder::with_blob("locked_patience");
    let held = lock(&folder, ALONE);
    let mut command = folder.command();
    let waiting = command.args(["length", "0"]).stdout(Stdio::piped()).spawn().unwrap();
    std::thread::sleep(std::time::Duration::from_millis(100));
    free(&held);
    assert_eq!(waiting.wait_with_output().unwrap().stdout, b"100\n");
}

/// An `init` that fails takes its lock file away. Who has opened that file just
/// before, and locks it just after, holds no lock, and begins again.
#[test]
fn a_lock_file_that_goes() {
    if !able_to_trace() {
        return skipped("strace is missing, or may not be used");
    }
    let folder = Folder::with_blob("locked_gone");
    let before = folder.store();
    let slowly = ["-o", "/dev/null", "-e", "inject=flock:delay_enter=1000000:when=1"];
    let mut command = folder.traced(&slowly, &["create", "--wait", "0"]);
    let waiting = command.stdout(Stdio::null()).stderr(Stdio::piped()).spawn().unwrap();
    std::thread::sleep(std::time::Duration::from_millis(500));
    std::fs::remove_file(folder.file("store.records.tj-lock")).unwrap();
    std::fs::write(folder.file("store.records.tj-lock"), b"").unwrap();
    let _held = lock(&folder, ALONE);
    assert_eq!(waiting.wait_with_output().unwrap().status.code(), Some(75));
    assert_eq!(folder.store(), before);
}
