//! How full a store is.

use crate::support::Folder;

#[test]
fn counts() {
    let folder = Folder::with_blob("status");
    folder.run(&["create"]).gives("4\n");
    let wanted = "\
slots               16
in use               5
  of these worn      0
free                11
  of these worn      0
blobs                2
largest new blob   480 bytes
";
    folder.run(&["status"]).gives(wanted);
}

/// Slot 1, in use, and slots 14 and 15, free, are at the last version.
#[test]
fn worn_slots() {
    let folder = Folder::with_blob("status_worn");
    let mut records = folder.read("store.records");
    for slot in [1, 14, 15] {
        records[slot * 12 + 4..][..8].fill(255);
    }
    folder.write("store.records", &records);
    let counts = r#""slots":16,"in_use":4,"in_use_worn":1,"free":12,"free_worn":2,"blobs":1"#;
    let object = format!("{{\"ok\":true,\"command\":\"status\",{counts},\"largest\":432}}\n");
    folder.run(&["status", "--json"]).gives(&object);
}

/// The largest new blob fits, and no larger one does.
#[test]
fn the_largest_new_blob() {
    for slots in [1, 2, 3, 13, 14, 15, 16, 17, 40, 157, 161, 1024, 1025, 65536] {
        let folder = Folder::with_store(&format!("status_{slots}"), slots);
        let status = folder.run(&["status"]);
        let line = status.text().lines().last().unwrap();
        let words: Vec<&str> = line.split_whitespace().collect();
        assert_eq!((words[..3].join(" ").as_str(), words[4]), ("largest new blob", "bytes"));
        let length: u64 = words[3].parse().unwrap();
        folder.run(&["create"]).gives("0\n");
        folder.run(&["resize", "0", &(length + 1).to_string()]).fails(11, "refused 11");
        assert_eq!(folder.run(&["resize", "0", &length.to_string()]).status, 0);
    }
}

#[test]
fn a_full_store() {
    let folder = Folder::with_store("status_full", 1);
    folder.run(&["create"]).gives("0\n");
    let status = folder.run(&["status"]);
    assert!(status.text().ends_with("\nlargest new blob  none\n"), "{status:?}");
    let status = folder.run(&["status", "--json"]);
    assert!(status.text().ends_with(",\"blobs\":1,\"largest\":null}\n"), "{status:?}");
}

/// The records are checked, the pool is not.
#[test]
fn by_the_records_alone() {
    let folder = Folder::with_blob("status_records");
    let sound = folder.run(&["status"]);
    folder.spoil(64, &[0]);
    folder.run(&["status"]).gives(sound.text());
    let mut records = folder.read("store.records");
    records[5 * 12] = 0;
    folder.write("store.records", &records);
    folder.run(&["status"]).fails(2, "refused 2: slot 5 has a broken record");
    folder.write("store.pool", b"");
    folder.run(&["status"]).fails(1, "refused 1");
    assert!(folder.run(&["status", "--help"]).text().contains("by the records alone"));
}
