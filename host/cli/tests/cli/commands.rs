//! Each command on a sound store.

use crate::support::{hundred, Folder};

#[test]
fn init_makes_both_files() {
    let folder = Folder::with_store("init", 4);
    let lengths = folder.store().map(|bytes| bytes.unwrap().len());
    assert_eq!(lengths, [256, 48]);
    assert_eq!(folder.names(), ["store.pool", "store.records", "store.records.tj-lock"]);
}

#[test]
fn init_replaces_only_by_force() {
    let folder = Folder::with_blob("init_force");
    let before = folder.store();
    folder.run(&["init"]).fails(73, "store.pool exists; `tjornsaki init --help` says what");
    folder.run(&["init", "--forget-history"]).fails(73, "store.pool exists");
    folder.run(&["init", "--force"]).fails(64, "pools from before may pass as this store's own");
    assert_eq!(folder.store(), before);
    folder.run(&["init", "--force", "--forget-history"]).gives("16 free slots\n");
    folder.run(&["audit"]).gives("sound: 0 of 16 slots in use\n");
}

#[test]
fn init_leaves_half_a_store_alone() {
    let folder = Folder::new("init_half");
    folder.write("store.records", b"something else");
    folder.run(&["init"]).fails(73, "store.records exists");
    assert_eq!(folder.read("store.records"), b"something else");
    assert!(!folder.file("store.pool").exists());
}

#[test]
fn the_paper_s_numbers() {
    let folder = Folder::with_store("paper", 4);
    folder.run(&["create"]).gives("0\n");
    folder.run(&["resize", "0", "49"]).gives("blob 0 has 49 bytes\n");
    folder.run(&["resize", "0", "48"]).gives("blob 0 has 48 bytes\n");
    folder.run(&["create"]).gives("1\n");
    let head = "root  length leaves blocks  version\n";
    let rows = "   0      48      1      1  3\n   1       0      1      1  2\n";
    folder.run(&["ls"]).gives(&format!("{head}{rows}"));
    folder.run(&["audit"]).gives("sound: 2 of 4 slots in use\n");
}

/// One of a thing is not told as many.
#[test]
fn one_of_each() {
    let folder = Folder::with_store("one", 1);
    folder.run(&["create"]).gives("0\n");
    folder.run(&["audit"]).gives("sound: 1 of 1 slot in use\n");
    folder.run_with(&["put", "0"], b"x").gives("blob 0 has 1 byte\n");
    folder.run_with(&["write", "0", "0"], b"y").gives("1 byte into blob 0\n");
    folder.run(&["resize", "0", "1"]).gives("blob 0 has 1 byte\n");
    folder.run(&["get", "0", "out"]).gives("1 byte to out\n");
    folder.run(&["draw", "--out", "one.svg"]).gives("picture of 1 slot in one.svg\n");
    let picture = String::from_utf8(folder.read("one.svg")).unwrap();
    for words in ["passes, 1 slot in use.", "1 slot: 1 in use, 0 free", "1 byte, 1 block<"] {
        assert!(picture.contains(words), "{words}");
    }
    folder.run(&["get", "1"]).fails(3, "the store has 1 slot;");
}

#[test]
fn put_and_get() {
    let folder = Folder::with_blob("put_get");
    assert_eq!(folder.run(&["get", "0"]).out, hundred());
    folder.run(&["length", "0"]).gives("100\n");
    folder.write("short", b"seven b");
    folder.run(&["put", "0", "short"]).gives("blob 0 has 7 bytes\n");
    folder.run(&["get", "0", "-"]).gives("seven b");
    folder.run(&["get", "0", "copy"]).gives("7 bytes to copy\n");
    assert_eq!(folder.read("copy"), b"seven b");
    folder.write("nothing", b"");
    folder.run(&["put", "0", "nothing"]).gives("blob 0 has 0 bytes\n");
    folder.run(&["get", "0"]).gives("");
}

#[test]
fn get_a_part() {
    let folder = Folder::with_blob("get_part");
    let part = folder.run(&["get", "0", "--offset", "40", "--size=20"]);
    assert_eq!((part.status, part.out), (0, hundred()[40..60].to_vec()));
    let rest = folder.run(&["get", "0", "--offset", "99"]);
    assert_eq!((rest.status, rest.out), (0, hundred()[99..].to_vec()));
    folder.run(&["get", "0", "--offset", "100"]).gives("");
    for words in [["--offset", "101"], ["--size", "101"], ["--size", "18446744073709551615"]] {
        folder.run(&["get", "0", words[0], words[1]]).fails(10, "refused 10");
    }
}

#[test]
fn write_stays_inside() {
    let folder = Folder::with_blob("write");
    folder.run_with(&["write", "0", "46"], b"over").gives("4 bytes into blob 0\n");
    let mut wanted = hundred();
    wanted[46..50].copy_from_slice(b"over");
    assert_eq!(folder.run(&["get", "0"]).out, wanted);
    folder.run_with(&["write", "0", "97"], b"over").fails(10, "refused 10: the range");
    assert_eq!(folder.run(&["get", "0"]).out, wanted);
}

#[test]
fn resize_fills_with_zeros() {
    let folder = Folder::with_blob("resize");
    folder.run(&["resize", "0", "3"]).gives("blob 0 has 3 bytes\n");
    folder.run(&["resize", "0", "5"]).gives("blob 0 has 5 bytes\n");
    assert_eq!(folder.run(&["get", "0"]).out, [1, 3, 5, 0, 0]);
    folder
        .run(&["resize", "0", "1000"])
        .fails(11, "refused 11: no room, 23 new blocks needed and 15 slots usable");
}

#[test]
fn show_a_leaf() {
    let folder = Folder::with_blob("show");
    assert_eq!(folder.run(&["show", "0", "0"]).out, hundred()[..48]);
    assert_eq!(folder.run(&["show", "0", "2"]).out, hundred()[96..]);
    folder.run(&["show", "0", "3"]).fails(10, "refused 10");
}

#[test]
fn delete_frees_all() {
    let folder = Folder::with_blob("delete");
    folder.run(&["delete", "0"]).gives("blob 0 is deleted\n");
    folder.run(&["audit"]).gives("sound: 0 of 16 slots in use\n");
    folder.run(&["get", "0"]).fails(3, "refused 3: slot 0 is not a root; `tjornsaki ls` lists");
    folder.run(&["ls"]).gives("root  length leaves blocks  version\n");
}

#[test]
fn the_records_can_lie_apart() {
    let folder = Folder::new("apart");
    std::fs::create_dir(folder.file("safe")).unwrap();
    let place = ["--records", "safe/r", "--pool=p"];
    folder.run(&[&place[..], &["init", "--slots", "2"]].concat()).gives("2 free slots\n");
    folder.run(&[&["create"], &place[..]].concat()).gives("0\n");
    assert_eq!(folder.names(), ["p", "safe"]);
    let mut command = folder.command();
    command.env("TJORNSAKI_POOL", "p").env("TJORNSAKI_RECORDS", "safe/r").arg("audit");
    assert_eq!(command.output().unwrap().stdout, b"sound: 1 of 2 slots in use\n");
}

#[test]
fn a_link_stays_a_link() {
    let folder = Folder::with_store("link", 2);
    std::fs::rename(folder.file("store.pool"), folder.file("real")).unwrap();
    std::os::unix::fs::symlink("real", folder.file("store.pool")).unwrap();
    folder.run(&["create"]).gives("0\n");
    assert!(folder.file("store.pool").symlink_metadata().unwrap().file_type().is_symlink());
    folder.run(&["audit"]).gives("sound: 1 of 2 slots in use\n");
}

#[test]
fn files_keep_their_permissions() {
    use std::os::unix::fs::PermissionsExt;
    let folder = Folder::with_store("permissions", 2);
    let mode = std::fs::Permissions::from_mode(0o600);
    std::fs::set_permissions(folder.file("store.records"), mode).unwrap();
    folder.run(&["create"]).gives("0\n");
    let about = folder.file("store.records").metadata().unwrap();
    assert_eq!(about.permissions().mode() & 0o777, 0o600);
}
