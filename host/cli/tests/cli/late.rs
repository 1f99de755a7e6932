//! A rename that is done, and reported as failed: nothing is lost, and nothing
//! goes back.

use crate::support::{emulator, hundred, skipped, Ended, Folder, PROGRAM};
use std::process::Command;

/// The C compiler for x86-64, by the name that cargo links with.
fn compiler() -> String {
    let linker = std::env::var("CARGO_TARGET_X86_64_UNKNOWN_LINUX_GNU_LINKER");
    linker.unwrap_or_else(|_| "cc".into())
}

/// Compiles the rename, as a library to be loaded before all others.
fn compiled(folder: &Folder) -> bool {
    let source = concat!(env!("CARGO_MANIFEST_DIR"), "/tests/cli/late.c");
    let words = ["-shared", "-fPIC", "-o", "late.so", source, "-ldl"];
    let made = Command::new(compiler()).args(words).current_dir(&folder.path).status();
    made.map_or(false, |status| status.success())
}

/// Runs a command whose nth rename is reported as failed.
fn late(folder: &Folder, nth: usize, words: &[&str]) -> Ended {
    let library = folder.file("late.so").into_os_string().into_string().unwrap();
    let set = [format!("LD_PRELOAD={library}"), format!("LATE={nth}")];
    let emulator = emulator();
    let mut command = match emulator.split_first() {
        None => {
            let mut command = Command::new("env");
            command.args(&set).arg(PROGRAM);
            command
        }
        Some((first, rest)) => {
            let mut command = Command::new(first);
            command.args(["-E", &set[0], "-E", &set[1]]).args(rest).arg(PROGRAM);
            command
        }
    };
    Ended::from(command.args(words).current_dir(&folder.path).output().unwrap())
}

#[test]
fn a_change_goes_on() {
    let folder = Folder::with_blob("late");
    if !compiled(&folder) {
        return skipped("no C compiler for x86-64");
    }
    folder.write("new", b"new");
    let start = folder.store().map(Option::unwrap);
    // The log, the pool, the records.
    for nth in 1..=3 {
        late(&folder, nth, &["put", "0", "new"]).gives("blob 0 has 3 bytes\n");
        folder.run(&["get", "0"]).gives("new");
        assert_eq!(folder.run(&["audit"]).status, 0);
        assert!(folder.names().iter().all(|name| !name.contains(".tj-new")));
        folder.write("store.pool", &start[0]);
        folder.write("store.records", &start[1]);
    }
    assert_eq!(folder.run(&["get", "0"]).out, hundred());
}

#[test]
fn a_store_is_made_and_an_output_written() {
    let folder = Folder::new("late_init");
    if !compiled(&folder) {
        return skipped("no C compiler for x86-64");
    }
    for nth in 1..=3 {
        let words = ["init", "--slots", "4", "--force", "--forget-history"];
        late(&folder, nth, &words).gives("4 free slots\n");
        folder.run(&["audit"]).gives("sound: 0 of 4 slots in use\n");
    }
    folder.run(&["create"]).gives("0\n");
    folder.run_with(&["put", "0"], b"out").gives("blob 0 has 3 bytes\n");
    late(&folder, 1, &["get", "0", "copy"]).gives("3 bytes to copy\n");
    assert_eq!(folder.read("copy"), b"out");
}
