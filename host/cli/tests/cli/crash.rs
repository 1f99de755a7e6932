//! A power cut at each step of a change: the next command finds the store from
//! before or from after it. The log is laid by hand, as `src/log.rs` describes it.

use crate::support::{hundred, skipped, Folder, CHANGING, READING};
use std::fs;
use std::os::unix::ffi::OsStrExt;
use std::path::Path;

const POOL: &str = "store.pool";
const RECORDS: &str = "store.records";
const NEW_POOL: &str = "store.pool.tj-new";
const NEW_RECORDS: &str = "store.records.tj-new";
const LOG: &str = "store.records.tj-log";
const NEW_LOG: &str = "store.records.tj-log.tj-new";

/// A store with 100 bytes in blob 0, and its files after a further change.
struct Cut {
    folder: Folder,
    pool: Vec<u8>,
    records: Vec<u8>,
}

fn cut(name: &str) -> Cut {
    let folder = Folder::with_blob(name);
    let before = folder.store();
    folder.run_with(&["put", "0"], b"new").gives("blob 0 has 3 bytes\n");
    let (pool, records) = (folder.read(POOL), folder.read(RECORDS));
    let [old_pool, old_records] = before.map(Option::unwrap);
    folder.write(POOL, &old_pool);
    folder.write(RECORDS, &old_records);
    Cut { folder, pool, records }
}

impl Cut {
    /// The log of the change, made in its place on the pool at this path.
    fn log(&self, path: &Path) -> Vec<u8> {
        let slots = (self.records.len() / 12) as u64;
        let before = sum(&self.folder.read(POOL));
        let home = fs::canonicalize(&self.folder.path).unwrap().join(LOG);
        let paths = [&home, path].map(|path| path.as_os_str().as_bytes()).join(&0);
        let head = [&b"tjornsaki log 1\n"[..], &slots.to_le_bytes(), &before.to_le_bytes()];
        [&head.concat(), &self.records[..], &self.pool, &paths].concat()
    }

    fn lay_log(&self) {
        self.folder.write(LOG, &self.log_here());
    }

    fn log_here(&self) -> Vec<u8> {
        self.log(&fs::canonicalize(self.folder.file(POOL)).unwrap())
    }

    /// The store is sound with these bytes, and can be changed again.
    fn goes_on(&self, bytes: &[u8]) {
        let folder = &self.folder;
        assert_eq!(folder.run(&["get", "0"]).out, bytes);
        assert_eq!(folder.run(&["audit"]).status, 0);
        folder.run_with(&["put", "0"], b"later").gives("blob 0 has 5 bytes\n");
        folder.run(&["get", "0"]).gives("later");
        let own: Vec<_> = folder.names().into_iter().filter(|name| name.contains(".tj-")).collect();
        assert_eq!(own, ["store.records.tj-lock"]);
    }
}

fn sum(bytes: &[u8]) -> u64 {
    let step = |sum: u64, byte: &u8| (sum ^ u64::from(*byte)).wrapping_mul(0x100_0000_01b3);
    bytes.iter().fold(0xcbf2_9ce4_8422_2325, step)
}

#[test]
fn before_the_log_has_its_name() {
    let cut = cut("cut_before");
    let log = cut.log(&cut.folder.file(POOL));
    for size in [0, 20, 500, log.len()] {
        cut.folder.write(NEW_LOG, &log[..size]);
        cut.folder.write(NEW_POOL, b"");
        cut.folder.write(NEW_RECORDS, b"");
        assert_eq!(cut.folder.run(&["get", "0"]).out, hundred());
    }
    cut.goes_on(&hundred());
}

#[test]
fn before_the_new_pool_is_in_place() {
    for size in [0, 100, 1024] {
        let cut = cut(&format!("cut_pool_{size}"));
        cut.lay_log();
        cut.folder.write(NEW_POOL, &cut.pool[..size]);
        cut.goes_on(b"new");
    }
}

#[test]
fn before_the_new_records_are_in_place() {
    for size in [0, 20, 192] {
        let cut = cut(&format!("cut_records_{size}"));
        cut.lay_log();
        cut.folder.write(POOL, &cut.pool);
        cut.folder.write(NEW_RECORDS, &cut.records[..size]);
        cut.goes_on(b"new");
    }
}

#[test]
fn before_the_log_goes() {
    let cut = cut("cut_log_goes");
    cut.lay_log();
    cut.folder.write(POOL, &cut.pool);
    cut.folder.write(RECORDS, &cut.records);
    cut.goes_on(b"new");
}

#[test]
fn while_a_store_is_made() {
    for gone in [&[POOL, RECORDS][..], &[RECORDS]] {
        let cut = cut(&format!("cut_init_{}", gone.len()));
        cut.lay_log();
        gone.iter().for_each(|name| fs::remove_file(cut.folder.file(name)).unwrap());
        cut.folder.run(&["init"]).fails(73, "exists; `tjornsaki init --help` says");
        cut.goes_on(b"new");
    }
}

#[test]
fn a_pool_that_is_spoilt_meanwhile_is_made_whole() {
    let cut = cut("cut_spoilt");
    cut.lay_log();
    cut.folder.write(POOL, b"garbage");
    cut.goes_on(b"new");
}

#[test]
fn a_refused_command_finishes_nothing_and_loses_nothing() {
    let cut = cut("cut_refused");
    cut.lay_log();
    let (names, store) = (cut.folder.names(), cut.folder.store());
    cut.folder.run(&["resize", "0", "100000"]).fails(11, "refused 11");
    cut.folder.run(&["show", "0", "7"]).fails(10, "refused 10");
    cut.folder.run(&["init"]).fails(73, "exists");
    assert_eq!((cut.folder.names(), cut.folder.store()), (names, store));
    cut.goes_on(b"new");
}

/// A write of no bytes changes nothing, but carries on what waits.
#[test]
fn a_change_of_nothing_carries_on() {
    let cut = cut("cut_nothing");
    cut.lay_log();
    cut.folder.write("empty", b"");
    cut.folder.run(&["write", "0", "0", "empty"]).gives("0 bytes into blob 0\n");
    assert_eq!(cut.folder.store(), [Some(cut.pool.clone()), Some(cut.records.clone())]);
    cut.goes_on(b"new");
}

/// A copy from before the change is not its pool, nor is anything else.
#[test]
fn a_log_is_carried_to_its_own_pool_only() {
    let cut = cut("cut_other_pool");
    cut.lay_log();
    cut.folder.write("copy", &cut.folder.read(POOL));
    cut.folder.write("notes", b"not a pool at all");
    for (other, status) in [("copy", 6), ("notes", 1)] {
        let before = (cut.folder.read(other), cut.folder.names());
        cut.folder.run(&["get", "0", "--pool", other]).fails(status, "refused");
        cut.folder.run(&["put", "0", "--pool", other]).fails(status, "refused");
        assert_eq!((cut.folder.read(other), cut.folder.names()), before);
    }
    cut.folder.write("after", &cut.pool);
    cut.folder.run(&["get", "0", "--pool", "after"]).gives("new");
    cut.folder.run(&["put", "0", "--pool", "after"]).fails(73, "holds a change of the pool");
    cut.folder.run(&["get", "0", "--pool", "typo"]).fails(66, "typo");
    cut.folder.run(&["put", "0", "--pool", "typo"]).fails(66, "typo");
    cut.goes_on(b"new");
}

/// Moved, or seen at another path: where nothing lies at the pool's own place any
/// more, it is known by what it holds.
#[test]
fn a_pool_that_moved_is_found() {
    for name in ["before", "after", "missing"] {
        let cut = cut(&format!("cut_moved_{name}"));
        cut.folder.write(LOG, &cut.log(Path::new("/somewhere/else/store.pool")));
        match name {
            "after" => cut.folder.write(POOL, &cut.pool),
            "missing" => fs::remove_file(cut.folder.file(POOL)).unwrap(),
            _ => (),
        }
        cut.goes_on(b"new");
    }
}

/// Somebody brings back records and log from before later changes: the pool is
/// ahead of them, and stays.
#[test]
fn an_old_log_destroys_no_newer_pool() {
    for place in ["in its place", "as a copy"] {
        let cut = cut(&format!("cut_old_log_{}", place.len()));
        let (log, records) = (cut.log_here(), cut.folder.read(RECORDS));
        for text in [&b"later"[..], b"and later"] {
            assert_eq!(cut.folder.run_with(&["put", "0"], text).status, 0);
        }
        let newer = cut.folder.read(POOL);
        let name = if place == "as a copy" { "copied" } else { RECORDS };
        cut.folder.write(name, &records);
        cut.folder.write(&format!("{name}.tj-log"), &log);
        for command in [&["get", "0"][..], &["audit"], &["put", "0"], &["create"]] {
            let words = [command, &["--records", name]].concat();
            cut.folder.run(&words).fails(7, "refused 7: slot 0 is ahead of its record");
        }
        assert_eq!(cut.folder.read(POOL), newer, "{place}");
    }
}

/// All of a store is copied while a log waits: the copy is a store of its own.
#[test]
fn a_copy_of_all_goes_on() {
    let cut = cut("cut_copy");
    cut.lay_log();
    fs::create_dir(cut.folder.file("copy")).unwrap();
    for name in [POOL, RECORDS, LOG] {
        fs::copy(cut.folder.file(name), cut.folder.file("copy").join(name)).unwrap();
    }
    let place = ["--pool", "copy/store.pool", "--records", "copy/store.records"];
    let before = cut.folder.store();
    cut.folder.run(&[&["get", "0"][..], &place].concat()).gives("new");
    cut.folder.run(&[&["create"][..], &place].concat()).gives("1\n");
    assert_eq!(cut.folder.store(), before);
    cut.goes_on(b"new");
}

/// A pipe in the pool's place is waited for by nobody.
#[test]
fn a_pipe_in_the_pool_s_place() {
    let cut = cut("cut_pipe");
    cut.lay_log();
    let made = std::process::Command::new("mkfifo").arg(cut.folder.file("pipe")).status();
    if !made.map_or(false, |status| status.success()) {
        return skipped("no mkfifo");
    }
    cut.folder.run(&["get", "0", "--pool", "pipe"]).fails(74, "pipe is not a plain file");
    cut.folder.run(&["put", "0", "--pool", "pipe"]).fails(74, "pipe is not a plain file");
    cut.goes_on(b"new");
}

#[test]
fn what_is_no_log_is_left_alone() {
    let cut = cut("cut_no_log");
    cut.folder.write(LOG, b"notes of somebody");
    let before = (cut.folder.names(), cut.folder.store());
    for command in READING.iter().chain(&CHANGING) {
        cut.folder.run(command).fails(74, "store.records.tj-log is no log that this version knows");
    }
    assert_eq!(cut.folder.read(LOG), b"notes of somebody");
    assert_eq!((cut.folder.names(), cut.folder.store()), before);
    fs::remove_file(cut.folder.file(LOG)).unwrap();
    cut.goes_on(&hundred());
}

/// What lies beside the pool is never taken for a part of the store.
#[test]
fn a_pool_beside_is_not_taken() {
    let cut = cut("cut_planted");
    cut.folder.write(NEW_POOL, &cut.pool);
    cut.folder.write("store.pool.tj-log", &cut.log(&cut.folder.file(POOL)));
    cut.folder.spoil(64, &[0]);
    let before = cut.folder.store();
    cut.folder.run(&["get", "0"]).fails(4, "refused 4: slot 1 is spoiled");
    cut.folder.run(&["create"]).fails(4, "refused 4: slot 1 is spoiled");
    assert_eq!(cut.folder.store(), before);
}

#[test]
fn a_link_beside_is_not_followed() {
    let folder = Folder::with_blob("cut_link");
    folder.write("precious", b"precious");
    for name in [NEW_POOL, NEW_RECORDS, NEW_LOG] {
        std::os::unix::fs::symlink("precious", folder.file(name)).unwrap();
    }
    folder.run_with(&["put", "0"], b"new").gives("blob 0 has 3 bytes\n");
    assert_eq!(folder.read("precious"), b"precious");
    folder.run(&["get", "0"]).gives("new");
}

/// A folder cannot be taken away; another name is found.
#[test]
fn a_folder_in_the_way_stops_nothing() {
    let folder = Folder::with_blob("cut_folder");
    for name in [NEW_POOL, NEW_RECORDS, NEW_LOG] {
        fs::create_dir(folder.file(name)).unwrap();
    }
    folder.run_with(&["put", "0"], b"new").gives("blob 0 has 3 bytes\n");
    folder.run(&["get", "0"]).gives("new");
    assert_eq!(folder.names().len(), 6);
}
