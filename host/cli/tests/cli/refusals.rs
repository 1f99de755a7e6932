//! What the store refuses: the number as exit status, and files as they were.

use crate::support::{Folder, CHANGING};

/// Every command that reads blob 0 or all, and the changing ones.
fn all_refuse(folder: &Folder, status: i32, words: &str) {
    let before = folder.store();
    let reading: [&[&str]; 4] = [&["length", "0"], &["get", "0"], &["show", "0", "0"], &["audit"]];
    for command in reading.iter().chain(&CHANGING) {
        folder.run(command).fails(status, words);
        assert_eq!(folder.store(), before, "{command:?}");
    }
    assert_eq!(folder.names(), ["store.pool", "store.records", "store.records.tj-lock"]);
}

#[test]
fn wrong_lengths() {
    let folder = Folder::with_blob("lengths");
    let pool = folder.read("store.pool");
    for length in [0, 1, 63, 1000, 1023] {
        folder.write("store.pool", &pool[..length]);
        all_refuse(&folder, 1, "refused 1: the lengths of pool and records do not fit");
        folder.run(&["ls"]).fails(1, "refused 1");
        folder.run(&["draw"]).fails(1, "refused 1");
    }
    // 65,600 bytes are no longer too long by themselves, but the records are too
    // short for them; `large.rs` has the pools that are.
    folder.write("store.pool", &vec![0; 65_600]);
    all_refuse(&folder, 1, "refused 1");
    folder.write("store.pool", &pool);
    folder.write("store.records", b"");
    all_refuse(&folder, 1, "refused 1");
}

#[test]
fn a_broken_record() {
    let folder = Folder::with_blob("record");
    let mut records = folder.read("store.records");
    records[5 * 12] = 0;
    folder.write("store.records", &records);
    all_refuse(&folder, 2, "refused 2: slot 5 has a broken record");
    folder.run(&["ls"]).fails(2, "refused 2");
    let picture = folder.run(&["draw"]);
    assert!(picture.text().contains("2 broken record"), "{}", picture.err);
}

#[test]
fn foreign_bytes() {
    let folder = Folder::with_blob("foreign");
    let mut state = 88172645463325252u64;
    let mut byte = move || {
        state ^= state << 13;
        state ^= state >> 7;
        state ^= state << 17;
        state as u8
    };
    let pool: Vec<u8> = (0..1024).map(|_| byte()).collect();
    folder.write("store.pool", &pool);
    all_refuse(&folder, 4, "refused 4: slot 0 is spoiled");
    let records: Vec<u8> = (0..192).map(|_| byte()).collect();
    folder.write("store.records", &records);
    all_refuse(&folder, 2, "refused 2: slot 0 has a broken record");
}

#[test]
fn spoiled_moved_old_ahead_shape() {
    let folder = Folder::with_blob("blocks");
    let pool = folder.read("store.pool");
    let cases: [(usize, u8, i32, &str); 5] = [
        (2 * 64, 0, 4, "refused 4: slot 2 is spoiled"),
        (2 * 64 + 4, 1, 5, "refused 5: slot 2 was moved"),
        (2 * 64 + 8, 1, 6, "refused 6: slot 2 was rolled back"),
        (2 * 64 + 8, 9, 7, "refused 7: slot 2 is ahead of its record"),
        (2 * 64 + 2, 1, 8, "refused 8: slot 2 has the wrong shape"),
    ];
    for (place, byte, status, words) in cases {
        folder.spoil(place, &[byte]);
        all_refuse(&folder, status, words);
        folder.write("store.pool", &pool);
    }
}

#[test]
fn a_deleted_block_is_back() {
    let folder = Folder::with_blob("back");
    let old = folder.read("store.pool");
    folder.run(&["resize", "0", "96"]).gives("blob 0 has 96 bytes\n");
    folder.spoil(3 * 64, &old[3 * 64..4 * 64]);
    folder.run(&["audit"]).fails(9, "refused 9: slot 3 was reintroduced");
    folder.run(&["create"]).fails(9, "refused 9: slot 3");
    assert_eq!(folder.run(&["get", "0"]).out.len(), 96);
}

#[test]
fn a_list_shows_refused_blobs_too() {
    let folder = Folder::with_blob("list");
    folder.run(&["create"]).gives("4\n");
    folder.spoil(64, &[0]);
    let list = folder.run(&["ls"]);
    assert_eq!(list.status, 4);
    let rows: Vec<&str> = list.text().lines().skip(1).collect();
    assert_eq!(rows, ["   0 refused 4: slot 1 is spoiled", "   4       0      1      1  1"]);
}

#[test]
fn worn() {
    let folder = Folder::with_blob("worn");
    let mut records = folder.read("store.records");
    records[16..24].fill(255);
    folder.write("store.records", &records);
    folder.spoil(64 + 8, &[255; 8]);
    let before = folder.store();
    folder
        .run_with(&["put", "0"], b"x")
        .fails(12, "refused 12: a block of the blob is at its last");
    assert_eq!(folder.store(), before);
    folder.run(&["delete", "0"]).gives("blob 0 is deleted\n");
}

#[test]
fn not_a_root() {
    let folder = Folder::with_blob("not_a_root");
    let commands: [&[&str]; 7] = [
        &["length", "?"],
        &["get", "?"],
        &["show", "?", "0"],
        &["put", "?"],
        &["write", "?", "0"],
        &["resize", "?", "5"],
        &["delete", "?"],
    ];
    let beyond = "refused 3: slot 16 is not a root, the store has 16 slots; `tjornsaki ls` lists";
    let cases = [
        ("1", "refused 3: slot 1 is not a root; `tjornsaki ls` lists the roots"),
        ("15", "refused 3: slot 15 is not a root; `tjornsaki ls` lists the roots"),
        ("16", beyond),
    ];
    for (root, message) in cases {
        for command in commands {
            let words: Vec<&str> =
                command.iter().map(|word| if *word == "?" { root } else { word }).collect();
            folder.run_with(&words, b"x").fails(3, message);
        }
    }
}

/// A store with 4 free slots, one of them worn: what is told to be needed is
/// what is needed.
#[test]
fn room_is_told_as_it_is() {
    let folder = Folder::with_blob("room_told");
    folder.run(&["create"]).gives("4\n");
    folder.run(&["resize", "4", "336"]).gives("blob 4 has 336 bytes\n");
    let mut records = folder.read("store.records");
    records[15 * 12 + 4..].fill(255);
    folder.write("store.records", &records);
    let lengths = [(144, 4), (192, 5), (240, 6), (241, 7), (576, 13), (577, 16), (6_913, 161)];
    for (length, blocks) in lengths {
        let (needed, length) = (blocks - 4, length.to_string());
        let ended = folder.run(&["resize", "0", &length]);
        if needed <= 3 {
            ended.gives(&format!("blob 0 has {length} bytes\n"));
            folder.run(&["resize", "0", "100"]).gives("blob 0 has 100 bytes\n");
        } else {
            let words = format!("no room, {needed} new blocks needed and 3 slots usable\n");
            ended.fails(11, &words);
        }
    }
}

#[test]
fn no_room() {
    let folder = Folder::with_store("room", 1);
    folder.run(&["create"]).gives("0\n");
    let before = folder.store();
    let room = |words: &str| format!("refused 11: no room, {words} needed and 0 slots usable\n");
    folder.run(&["create"]).fails(11, &room("1 new block"));
    folder.run_with(&["put", "0"], &[7; 49]).fails(11, &room("2 new blocks"));
    // An input that fits the largest pool is read to its end; `large.rs` has a
    // longer one, of which it is told how many blocks it takes at least.
    folder.run_with(&["put", "0"], &vec![7; 1_000_000]).fails(11, &room("22731 new blocks"));
    folder.run(&["resize", "0", "1000000"]).fails(11, &room("22731 new blocks"));
    folder.run_with(&["write", "0", "0"], &vec![7; 1_000_000]).fails(10, "refused 10");
    assert_eq!(folder.store(), before);
}
