//! Help, and words that are no command.

use crate::support::Folder;

pub const COMMANDS: &[&str] = &[
    "init", "create", "ls", "length", "put", "get", "write", "resize", "show", "delete", "audit",
    "check", "status", "draw", "demo",
];

#[test]
fn help_lists_all() {
    let folder = Folder::new("help");
    for word in ["--help", "-h", "help"] {
        let help = folder.run(&[word]);
        assert_eq!((help.status, help.err.as_str()), (0, ""));
        for command in COMMANDS {
            assert!(help.text().contains(&format!("\n  {command} ")), "{command}");
        }
        for status in [64, 65, 66, 70, 73, 74, 75, 77] {
            assert!(help.text().contains(&format!("\n  {status}  ")), "{status}");
        }
        assert!(help.text().lines().all(|line| line.chars().count() <= 80));
    }
    assert!(folder.names().is_empty());
}

#[test]
fn each_command_has_help() {
    let folder = Folder::new("help_each");
    for command in COMMANDS {
        let help = folder.run(&[command, "--help"]);
        let usage = format!("Usage: tjornsaki {command}");
        assert!(help.status == 0 && help.text().starts_with(&usage), "{help:?}");
        assert!(help.text().contains("--records FILE"));
        assert!(help.text().lines().all(|line| line.chars().count() <= 80));
        assert_eq!(folder.run(&["help", command]).out, help.out);
    }
    assert!(folder.names().is_empty());
}

#[test]
fn version() {
    let folder = Folder::new("version");
    folder.run(&["--version"]).gives("tjornsaki 0.3.0\n");
}

#[test]
fn wrong_words() {
    let folder = Folder::with_blob("words");
    let before = folder.store();
    let cases: [(&[&str], &str); 11] = [
        (&["help", "frobnicate"], "unknown command `frobnicate`"),
        (&[], "no command"),
        (&["frobnicate"], "unknown command `frobnicate`"),
        (&["get"], "ROOT is missing"),
        (&["resize", "0"], "LENGTH is missing"),
        (&["get", "0", "a", "b"], "`b` is one word too many"),
        (&["get", "0", "--colour"], "unknown option --colour"),
        (&["create", "--force"], "unknown option --force"),
        (&["init", "--force=yes"], "unknown option --force=yes"),
        (&["ls", "--pool"], "--pool needs a value"),
        (&["ls", "--pool", "a", "--records", "./a"], "must be two files"),
    ];
    for (words, message) in cases {
        folder.run(words).fails(64, message);
    }
    assert_eq!(folder.store(), before);
}

#[test]
fn a_file_may_begin_with_a_dash() {
    let folder = Folder::with_blob("dash");
    folder.write("-x", b"dash");
    folder.run(&["put", "0", "--", "-x"]).gives("blob 0 has 4 bytes\n");
}
