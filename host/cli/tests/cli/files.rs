//! Files that are missing, read-only, or no files.

use crate::support::{emulator, skipped, Folder, CHANGING, PROGRAM, READING};
use std::fs;
use std::process::Command;

#[test]
fn missing() {
    let folder = Folder::new("missing");
    for command in READING.iter().chain(&CHANGING) {
        folder.run(command).fails(66, "store.records is missing; `tjornsaki init` makes a store");
    }
    assert!(folder.names().is_empty());
    folder.run(&["init", "--pool", "no/such/p"]).fails(66, "no/such");
    folder.run(&["init", "--records", "no/such/r"]).fails(66, "no/such");
    assert!(folder.names().is_empty(), "an init that fails leaves nothing");
}

/// Where only the records are lost, no hint leads to wiping the pool.
#[test]
fn lost_records() {
    let folder = Folder::with_blob("lost_records");
    fs::remove_file(folder.file("store.records")).unwrap();
    let ended = folder.run(&["get", "0"]);
    ended.fails(66, "bring them back from a copy");
    assert!(!ended.err.contains("init"), "{}", ended.err);
    let ended = folder.run(&["init"]);
    ended.fails(73, "store.pool exists");
    assert!(!ended.err.contains("--force"), "{}", ended.err);
    assert_eq!(folder.names(), ["store.pool", "store.records.tj-lock"], "it was there before");
    fs::remove_file(folder.file("store.records.tj-lock")).unwrap();
    folder.run(&["init"]).fails(73, "store.pool exists");
    assert_eq!(folder.names(), ["store.pool"]);
}

#[test]
fn empty_names() {
    let folder = Folder::new("empty_names");
    for words in [&["init", "--pool="][..], &["audit", "--records", ""], &["demo", "--out", ""]] {
        folder.run(words).fails(64, " needs a value");
    }
    folder.run(&["put", "0", ""]).fails(64, "a word is empty");
    assert!(folder.names().is_empty());
}

/// What a link leads to may be anything: it is not replaced.
#[test]
fn init_replaces_nothing_through_a_link() {
    let folder = Folder::with_blob("init_link");
    folder.write("notes", b"notes");
    for name in ["store.pool", "store.records"] {
        fs::rename(folder.file(name), folder.file("kept")).unwrap();
        std::os::unix::fs::symlink("notes", folder.file(name)).unwrap();
        let words = ["init", "--force", "--forget-history"];
        folder.run(&words).fails(73, "is a link; init replaces no file through one");
        fs::rename(folder.file("kept"), folder.file(name)).unwrap();
    }
    assert_eq!(folder.read("notes"), b"notes");
}

#[test]
fn one_is_missing() {
    for gone in ["store.pool", "store.records"] {
        let folder = Folder::with_blob(&format!("missing_{gone}"));
        fs::remove_file(folder.file(gone)).unwrap();
        let before = folder.store();
        for command in READING.iter().chain(&CHANGING) {
            folder.run(command).fails(66, &format!("{gone} is missing"));
        }
        assert_eq!(folder.store(), before);
    }
}

#[test]
fn empty() {
    let folder = Folder::with_blob("empty");
    folder.write("store.pool", b"");
    folder.write("store.records", b"");
    for command in READING.iter().chain(&CHANGING) {
        folder.run(command).fails(1, "refused 1: the lengths");
    }
    assert_eq!(folder.store(), [Some(vec![]), Some(vec![])]);
}

#[test]
fn read_only() {
    for closed in ["store.pool", "store.records"] {
        let folder = Folder::with_blob(&format!("read_only_{closed}"));
        let mut permissions = folder.file(closed).metadata().unwrap().permissions();
        permissions.set_readonly(true);
        fs::set_permissions(folder.file(closed), permissions).unwrap();
        let before = folder.store();
        for command in CHANGING {
            folder.run(command).fails(77, &format!("{closed} is read-only"));
        }
        folder
            .run(&["init", "--force", "--forget-history"])
            .fails(77, &format!("{closed} is read-only"));
        assert_eq!(folder.store(), before);
        assert_eq!(folder.run(&["get", "0"]).status, 0);
        assert_eq!(folder.names().len(), 3);
    }
}

#[test]
fn a_folder_is_no_file() {
    let folder = Folder::with_blob("folder");
    fs::create_dir(folder.file("d")).unwrap();
    let before = folder.store();
    for command in READING.iter().chain(&CHANGING) {
        folder.run(&[*command, &["--pool", "d"]].concat()).fails(74, "d is not a plain file");
    }
    folder
        .run(&["init", "--force", "--forget-history", "--pool", "d"])
        .fails(74, "d is not a plain file");
    folder.run(&["get", "0", "d"]).fails(74, "cannot write d");
    assert_eq!(folder.store(), before);
}

#[test]
fn a_pipe_is_no_file() {
    let folder = Folder::with_blob("fifo");
    let made = Command::new("mkfifo").arg(folder.file("p")).status();
    if !made.map_or(false, |status| status.success()) {
        return skipped("no mkfifo");
    }
    for command in READING.iter().chain(&CHANGING) {
        folder.run(&[*command, &["--records", "p"]].concat()).fails(74, "p is not a plain file");
    }
}

#[test]
fn output_never_replaces_the_store() {
    let folder = Folder::with_blob("own_files");
    let before = folder.store();
    let names = [
        "store.pool",
        "./store.records",
        "store.records.tj-lock",
        "x.tj-new",
        "store.records.tj-log",
    ];
    for own in names {
        folder.run(&["get", "0", own]).fails(64, "belongs to the store");
        folder.run(&["draw", "--out", own]).fails(64, "belongs to the store");
    }
    assert_eq!(folder.store(), before);
}

/// One byte more than the most is too long. A pool of 1,000,000 bytes was, and is
/// not in a store of up to 65,536 slots; records of that length still are.
#[test]
fn init_replaces_no_long_files() {
    let folder = Folder::with_blob("long");
    for (name, size) in
        [("store.pool", 4_194_305), ("store.records", 786_433), ("store.records", 1_000_000)]
    {
        let long = vec![1; size];
        let before = folder.read(name);
        folder.write(name, &long);
        folder
            .run(&["init", "--force", "--forget-history"])
            .fails(73, &format!("{name} is too long"));
        assert_eq!(folder.read(name), long);
        folder.write(name, &before);
    }
    folder.write("store.pool", &[1; 4_194_304]);
    folder.write("store.records", &[1; 786_432]);
    folder.run(&["init", "--force", "--forget-history"]).gives("16 free slots\n");
}

#[test]
fn a_path_through_a_file() {
    let folder = Folder::with_blob("through");
    for command in READING.iter().chain(&CHANGING) {
        let words = [*command, &["--pool", "store.records/p"]].concat();
        folder.run(&words).fails(74, "store.records/p");
    }
}

#[test]
fn output_is_whole_or_not_there() {
    let folder = Folder::with_blob("output");
    folder.write("out", b"what was there");
    folder.spoil(64, &[0]);
    folder.run(&["get", "0", "out"]).fails(4, "refused 4");
    assert_eq!(folder.read("out"), b"what was there");
    folder.run(&["get", "0", "no/such/out"]).fails(4, "refused 4");
    folder.run(&["draw", "--out", "no/such/out"]).fails(66, "no/such");
    std::os::unix::fs::symlink("out", folder.file("link")).unwrap();
    folder.run(&["draw", "--out", "link"]).gives("picture of 16 slots in link\n");
    assert!(folder.read("out").starts_with(b"<svg"), "a link stays a link");
}

/// The names of the store's own are for nothing else.
#[test]
fn own_names_are_refused() {
    let folder = Folder::with_blob("own_names");
    std::os::unix::fs::symlink("x.tj-log", folder.file("link")).unwrap();
    folder.write("x.tj-log", b"something");
    for own in ["x.tj-new", "x.tj-lock", "x.tj-log", "x.tj-new-3", "link"] {
        for option in ["--pool", "--records"] {
            folder.run(&["audit", option, own]).fails(64, "belongs to the store");
            folder.run(&["init", option, own]).fails(64, "belongs to the store");
        }
        folder.run(&["get", "0", own]).fails(64, "belongs to the store");
    }
    assert_eq!(folder.read("x.tj-log"), b"something");
}

/// The program has the number of the shell that it takes the place of, so that its
/// own name for the output is known beforehand.
#[test]
fn output_takes_no_name_away() {
    let folder = Folder::with_blob("output_name");
    let line =
        format!("echo mine > out.tj-out-$$-0; exec {} '{PROGRAM}' get 0 out", emulator().join(" "));
    let output = Command::new("sh").args(["-c", &line]).current_dir(&folder.path).output();
    assert_eq!(output.unwrap().stdout, b"100 bytes to out\n");
    let mut names = folder.names();
    names.retain(|name| name.contains(".tj-out"));
    assert_eq!(names.len(), 1);
    assert_eq!(folder.read(&names[0]), b"mine\n");
}

/// An output is first written beside its place, under a name that nothing has.
#[test]
fn output_takes_nothing_away() {
    let folder = Folder::with_blob("output_beside");
    for name in ["out.tj-new", "out.tj-log", "out.new", "out~"] {
        folder.write(name, b"somebody's");
    }
    let before = folder.names().len();
    folder.run(&["get", "0", "out"]).gives("100 bytes to out\n");
    folder.run(&["draw", "--out", "out"]).gives("picture of 16 slots in out\n");
    for name in ["out.tj-new", "out.tj-log", "out.new", "out~"] {
        assert_eq!(folder.read(name), b"somebody's");
    }
    assert_eq!(folder.names().len(), before + 1);
}

/// Names may have any bytes, also after an equals sign.
#[test]
fn names_that_are_no_text() {
    use std::ffi::OsString;
    use std::os::unix::ffi::OsStringExt;
    let folder = Folder::with_blob("no_text");
    let name = OsString::from_vec(b"p\xff\xfe=x".to_vec());
    fs::rename(folder.file("store.pool"), folder.path.join(&name)).unwrap();
    let joined = [&b"--pool="[..], b"p\xff\xfe=x"].concat();
    for words in [vec!["--pool".into(), name], vec![OsString::from_vec(joined)]] {
        let output = folder.command().arg("length").arg("0").args(&words).output().unwrap();
        assert_eq!(output.stdout, b"100\n", "{output:?}");
    }
    let unknown = OsString::from_vec(b"--p\xff".to_vec());
    let output = folder.command().arg("audit").arg(unknown).output().unwrap();
    assert_eq!(output.status.code(), Some(64));
}
