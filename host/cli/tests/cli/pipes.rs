//! Standard input and output between commands.

use crate::support::{hundred, shell, skipped, there_is, Folder};

#[test]
fn from_a_store_into_the_same() {
    if !there_is("bash") {
        return skipped("no bash");
    }
    let folder = Folder::with_blob("pipe_same");
    let line = "for i in 1 2 3 4 5; do t get 0 | t put 0 - || exit; done; t get 0";
    let (status, out, _) = shell(&folder, &format!("({line}) | tail -c 100"));
    assert_eq!((status, out), (0, hundred()));
}

#[test]
fn a_reader_that_stops_is_no_failure() {
    if !there_is("bash") {
        return skipped("no bash");
    }
    let folder = Folder::with_store("pipe_stop", 1024);
    for command in ["draw", "draw --json", "--help", "demo"] {
        let ended = shell(&folder, &format!("t {command} | true"));
        assert_eq!(ended, (0, vec![], String::new()), "{command}");
    }
}

#[test]
fn output_that_cannot_be_written() {
    let folder = Folder::with_blob("pipe_full");
    if !std::path::Path::new("/dev/full").exists() || !there_is("bash") {
        return skipped("no /dev/full");
    }
    let (status, _, err) = shell(&folder, "t get 0 > /dev/full");
    assert_eq!(status, 74);
    assert!(err.contains("cannot write to standard output"), "{err}");
    let (status, _, err) = shell(&folder, "t resize 0 9 > /dev/full");
    assert!(status == 74 && err.contains("; the change is made"), "{err}");
    folder.run(&["length", "0"]).gives("9\n");
    let (status, ..) = shell(&folder, "t get 9 2> /dev/full");
    assert_eq!(status, 3);
    folder.run(&["get", "0", "/dev/full"]).fails(74, "cannot write /dev/full");
}

#[test]
fn output_to_a_device() {
    let folder = Folder::with_blob("pipe_device");
    folder.run(&["get", "0", "/dev/null"]).gives("100 bytes to /dev/null\n");
    assert!(!std::path::Path::new("/dev/null").is_file());
}

#[test]
fn input_that_cannot_be_read() {
    let folder = Folder::with_blob("pipe_input");
    let before = folder.store();
    folder.run(&["put", "0", "nowhere"]).fails(66, "cannot read nowhere");
    folder.run(&["put", "0", "."]).fails(74, "cannot read .");
    folder.run(&["write", "0", "0", "nowhere"]).fails(66, "cannot read nowhere");
    assert_eq!(folder.store(), before);
}

/// A closed standard input, or that of a command that failed, empties no blob.
#[test]
fn input_without_bytes() {
    let folder = Folder::with_blob("pipe_empty");
    let before = folder.store();
    for words in [&["put", "0"][..], &["put", "0", "-"], &["write", "0", "0"]] {
        let words_of_put = "; `put ROOT --empty` empties a blob";
        let ended = folder.run_with(words, b"");
        ended.fails(65, "nothing is changed: standard input, or a pipe, has no bytes");
        assert_eq!(ended.err.contains(words_of_put), words[0] == "put");
    }
    if there_is("bash") {
        for line in ["t put 0 <&-", "t put 0 <(false)", "false | t put 0 /dev/stdin"] {
            let (status, _, err) = shell(&folder, line);
            assert_eq!(status, 65, "{line}: {err}");
        }
    }
    assert_eq!(folder.store(), before);
    folder.run(&["put", "0", "--empty", "file"]).fails(64, "--empty takes no FILE");
    folder.run(&["put", "0", "--empty"]).gives("blob 0 has 0 bytes\n");
    folder.run(&["length", "0"]).gives("0\n");
}

/// Nothing is delivered, so it failed: where output is closed, and where nobody
/// reads all of a blob.
#[test]
fn output_that_nobody_gets() {
    if !there_is("bash") {
        return skipped("no bash");
    }
    let folder = Folder::with_blob("pipe_closed");
    for command in ["get 0", "show 0 0", "ls", "--help", "get 0 --json"] {
        let (status, out, err) = shell(&folder, &format!("t {command} >&-"));
        assert_eq!((status, out), (74, vec![]), "{command}: {err}");
    }
    let (status, _, err) = shell(&folder, "t get 0 >&-");
    assert!(status == 74 && err.contains("standard output"), "{err}");
    let (status, _, err) = shell(&folder, "t resize 0 9 >&-");
    assert!(status == 74 && err.contains("; the change is made"), "{err}");
    folder.run(&["length", "0"]).gives("9\n");
    let (status, ..) = shell(&folder, "t get 0 > /dev/null");
    assert_eq!(status, 0);
    for command in ["get 0", "show 0 0", "length 0"] {
        let (status, _, err) = shell(&folder, &format!("(sleep 0.2; t {command}) | true"));
        assert!(status == 74 && err.contains("nobody reads standard output"), "{command}: {err}");
    }
    let (status, _, err) = shell(&folder, "(sleep 0.2; t create) | true");
    assert!(status == 74 && err.contains("nobody reads standard output to its end; the change"));
}

/// What was done is told, whatever else fails, to machines too.
#[test]
fn done_is_done() {
    if !there_is("bash") {
        return skipped("no bash");
    }
    let folder = Folder::with_blob("pipe_done");
    for line in ["t get 0 out >&-", "t draw --out out >&-"] {
        let (status, _, err) = shell(&folder, line);
        assert!(status == 74 && err.contains("; the file is written"), "{line}: {err}");
    }
    let (status, _, err) = shell(&folder, "(sleep 0.2; t get 0 out) | true");
    assert_eq!((status, err.as_str()), (0, ""));
    let (status, _, err) = shell(&folder, "t create --json >&-");
    assert!(status == 74 && err.contains("standard output is closed; the change is made"), "{err}");
    assert!(folder.run(&["ls"]).text().contains("\n   4 "));
}

/// A list that nobody reads to its end still has the status of what it lists.
#[test]
fn an_unread_list_keeps_its_status() {
    if !there_is("bash") {
        return skipped("no bash");
    }
    let folder = Folder::with_blob("pipe_status");
    folder.spoil(64, &[0]);
    for command in ["ls", "check", "audit"] {
        let (status, ..) = shell(&folder, &format!("(sleep 0.2; t {command}) | true"));
        assert_eq!(status, 4, "{command}");
    }
}

/// Standard output by its other name goes on where others left it.
#[test]
fn standard_output_by_its_name() {
    if !there_is("bash") {
        return skipped("no bash");
    }
    let folder = Folder::with_blob("pipe_name");
    let (status, ..) = shell(&folder, "(echo a; t get 0 /dev/stdout; echo b) >> log");
    assert_eq!((status, folder.read("log")), (0, [b"a\n", &hundred()[..], b"b\n"].concat()));
}
