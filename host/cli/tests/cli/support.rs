//! Runs the command in a folder of its own.

use std::fs;
use std::io::Write;
use std::path::PathBuf;
use std::process::{Command, Output, Stdio};

pub const PROGRAM: &str = env!("CARGO_BIN_EXE_tjornsaki");

/// The emulator that cargo is told to run programs with, if any.
pub fn emulator() -> Vec<String> {
    let words = std::env::var("CARGO_TARGET_X86_64_UNKNOWN_LINUX_GNU_RUNNER").unwrap_or_default();
    words.split_whitespace().map(String::from).collect()
}

/// A line for a shell that lets `t` run the program.
pub fn shell_function() -> String {
    format!("t() {{ {} '{PROGRAM}' \"$@\"; }}", emulator().join(" "))
}

/// Runs a line in a shell that fails if any command of a pipe fails.
pub fn shell(folder: &Folder, line: &str) -> (i32, Vec<u8>, String) {
    let line = format!("set -o pipefail; {}; {line}", shell_function());
    let output = Command::new("bash").args(["-c", &line]).current_dir(&folder.path).output();
    let output = output.unwrap();
    let err = String::from_utf8(output.stderr).unwrap();
    (output.status.code().unwrap(), output.stdout, err)
}

/// How a command ended.
#[derive(Debug)]
pub struct Ended {
    pub status: i32,
    pub out: Vec<u8>,
    pub err: String,
}

impl From<Output> for Ended {
    /// The status is -1 if a signal ended it.
    fn from(output: Output) -> Ended {
        let err = String::from_utf8(output.stderr).unwrap();
        Ended { status: output.status.code().unwrap_or(-1), out: output.stdout, err }
    }
}

impl Ended {
    pub fn text(&self) -> &str {
        std::str::from_utf8(&self.out).unwrap()
    }

    /// Passed with this output.
    #[track_caller]
    pub fn gives(&self, out: &str) {
        let found = (self.status, String::from_utf8_lossy(&self.out), self.err.as_str());
        assert_eq!(found, (0, out.into(), ""));
    }

    /// Failed with this status, a message with these words, and no output.
    #[track_caller]
    pub fn fails(&self, status: i32, words: &str) {
        assert_eq!(self.status, status, "{self:?}");
        assert!(self.err.starts_with("tjornsaki: "), "{self:?}");
        assert!(self.err.contains(words), "{words} in {self:?}");
        assert!(self.out.is_empty(), "{self:?}");
        assert_eq!(self.err.lines().count(), 1, "{self:?}");
    }
}

/// A folder that goes with the test.
pub struct Folder {
    pub path: PathBuf,
}

impl Drop for Folder {
    fn drop(&mut self) {
        let _ = fs::remove_dir_all(&self.path);
    }
}

impl Folder {
    /// An empty folder; `name` is the test's own.
    pub fn new(name: &str) -> Folder {
        let path = PathBuf::from(env!("CARGO_TARGET_TMPDIR")).join(name);
        let _ = fs::remove_dir_all(&path);
        fs::create_dir_all(&path).unwrap();
        Folder { path }
    }

    /// A folder with a store of so many slots.
    pub fn with_store(name: &str, slots: usize) -> Folder {
        let folder = Folder::new(name);
        folder
            .run(&["init", "--slots", &slots.to_string()])
            .gives(&format!("{slots} free slot{}\n", if slots == 1 { "" } else { "s" }));
        folder
    }

    /// A folder with a store of 16 slots and 100 bytes in blob 0.
    pub fn with_blob(name: &str) -> Folder {
        let folder = Folder::with_store(name, 16);
        folder.run(&["create"]).gives("0\n");
        folder.run_with(&["put", "0"], &hundred()).gives("blob 0 has 100 bytes\n");
        folder
    }

    pub fn command(&self) -> Command {
        let words = [emulator(), vec![PROGRAM.to_string()]].concat();
        let mut command = Command::new(&words[0]);
        command.args(&words[1..]).current_dir(&self.path);
        command.env_remove("TJORNSAKI_POOL").env_remove("TJORNSAKI_RECORDS");
        command
    }

    /// The command under strace, with options of its own.
    pub fn traced(&self, options: &[&str], words: &[&str]) -> Command {
        let mut command = Command::new("strace");
        command.args(["-qq", "-f"]).args(options).args(emulator()).arg(PROGRAM).args(words);
        command.current_dir(&self.path).env_remove("LD_LIBRARY_PATH");
        command
    }

    /// Runs with an input that does for commands that need one.
    pub fn run(&self, words: &[&str]) -> Ended {
        self.run_with(words, b"x")
    }

    /// Runs with this input.
    pub fn run_with(&self, words: &[&str], input: &[u8]) -> Ended {
        let mut command = self.command();
        command.args(words).stdin(Stdio::piped()).stdout(Stdio::piped()).stderr(Stdio::piped());
        let mut child = command.spawn().unwrap();
        // A command that fails early does not read its input.
        let _ = child.stdin.take().unwrap().write_all(input);
        Ended::from(child.wait_with_output().unwrap())
    }

    pub fn file(&self, name: &str) -> PathBuf {
        self.path.join(name)
    }

    pub fn read(&self, name: &str) -> Vec<u8> {
        fs::read(self.file(name)).unwrap()
    }

    pub fn write(&self, name: &str, bytes: &[u8]) {
        fs::write(self.file(name), bytes).unwrap();
    }

    /// The bytes of pool and records; none where a file is missing.
    pub fn store(&self) -> [Option<Vec<u8>>; 2] {
        ["store.pool", "store.records"].map(|name| fs::read(self.file(name)).ok())
    }

    /// All names in the folder, in order.
    pub fn names(&self) -> Vec<String> {
        let entries = fs::read_dir(&self.path).unwrap();
        let name = |entry: fs::DirEntry| entry.file_name().into_string().unwrap();
        let mut names: Vec<String> = entries.map(|entry| name(entry.unwrap())).collect();
        names.sort();
        names
    }

    /// Changes bytes of the pool from this place on.
    pub fn spoil(&self, place: usize, bytes: &[u8]) {
        let mut pool = self.read("store.pool");
        pool[place..place + bytes.len()].copy_from_slice(bytes);
        self.write("store.pool", &pool);
    }
}

/// 100 bytes, no two neighbours alike.
pub fn hundred() -> Vec<u8> {
    (0..100).map(|byte| byte * 2 + 1).collect()
}

/// Every command that changes a store, with words that would do it.
pub const CHANGING: [&[&str]; 5] =
    [&["create"], &["put", "0"], &["write", "0", "0"], &["resize", "0", "7"], &["delete", "0"]];

/// Every command that reads a store.
pub const READING: [&[&str]; 8] = [
    &["ls"],
    &["length", "0"],
    &["get", "0"],
    &["show", "0", "0"],
    &["audit"],
    &["check"],
    &["status"],
    &["draw"],
];

/// Whether a program can be run.
pub fn there_is(program: &str) -> bool {
    let found = Command::new(program).arg("--version").stdout(Stdio::null()).status();
    found.map_or(false, |status| status.success())
}

/// Whether strace can be used.
pub fn able_to_trace() -> bool {
    let tried = Command::new("strace").args(["-qq", "-o", "/dev/null", "true"]).output();
    tried.map_or(false, |output| output.status.success())
}

/// Says that a test cannot run here, and why. The line also goes to the file that
/// `TJORNSAKI_SKIPPED` names, so that whoever runs the tests can count them.
pub fn skipped(why: &str) {
    println!("skipped: {why}");
    if let Some(list) = std::env::var_os("TJORNSAKI_SKIPPED") {
        let file = fs::OpenOptions::new().append(true).create(true).open(list);
        writeln!(file.unwrap(), "{}: {why}", std::thread::current().name().unwrap_or("a test"))
            .unwrap();
    }
}
