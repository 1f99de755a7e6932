//! The published vectors: what the player prints for a program's script is
//! what that program's own file has.

use std::fs::{read_to_string, File};
use std::path::Path;
use std::process::Command;

/// The player, run by the emulator that cargo is told to run programs with, if any.
fn player() -> Command {
    let runner = std::env::var("CARGO_TARGET_X86_64_UNKNOWN_LINUX_GNU_RUNNER").unwrap_or_default();
    let mut words = runner.split_whitespace().chain([env!("CARGO_BIN_EXE_vectors")]);
    let mut player = Command::new(words.next().expect("a program"));
    player.args(words);
    player
}

fn plays_as_published(program: &str) {
    let folder = Path::new(env!("CARGO_MANIFEST_DIR")).join("../../crates").join(program);
    let script = File::open(folder.join("stdin")).expect("a script");
    let wanted = read_to_string(folder.join("stdout")).expect("what is published");
    let done = player().stdin(script).output().expect("the player runs");
    assert!(done.status.success());
    let printed = String::from_utf8(done.stdout).expect("plain text");
    for (number, (line, want)) in printed.lines().zip(wanted.lines()).enumerate() {
        assert_eq!(line, want, "line {}", number + 1);
    }
    assert_eq!(printed.len(), wanted.len());
}

#[test]
fn reading_calls() {
    plays_as_published("vectors_read");
}

#[test]
fn changing_calls() {
    plays_as_published("vectors_change");
}
