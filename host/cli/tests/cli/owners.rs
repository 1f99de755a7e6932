//! A store of one user that another one's command changes. Only root can try:
//! otherwise these tests are skipped.

use crate::support::{emulator, hundred, skipped, Ended, Folder, PROGRAM};
use std::fs::{self, Permissions};
use std::io::Write;
use std::os::unix::fs::{MetadataExt, PermissionsExt};
use std::os::unix::process::CommandExt;
use std::path::Path;
use std::process::{Command, Stdio};

const OWNER: u32 = 51_001;
const FRIEND: u32 = 51_002;
const NAMES: [&str; 3] = ["store.pool", "store.records", "store.records.tj-lock"];

/// A user's folder with a store, where others can run the program.
struct Home {
    folder: Folder,
    program: String,
}

/// Tries something in a home, if one can be made; the files have this mode.
fn at_home(name: &str, mode: u32, test: impl Fn(&Home)) {
    if let Some(home) = home(name, mode) {
        test(&home);
    }
}

fn home(name: &str, mode: u32) -> Option<Home> {
    let path = std::env::temp_dir().join(format!("tjornsaki-{}-{name}", std::process::id()));
    fs::create_dir_all(path.join("home")).unwrap();
    fs::set_permissions(&path, Permissions::from_mode(0o755)).unwrap();
    let program = path.join("tjornsaki").to_str().unwrap().to_string();
    fs::copy(PROGRAM, &program).unwrap();
    let home = Home { folder: Folder { path: path.clone() }, program };
    if !chown(&path.join("home"), OWNER, OWNER) {
        skipped("only root can give files to others");
        return None;
    }
    if home.run(OWNER, &["init"], b"").status != 0 {
        skipped("another user cannot run the program from the temporary folder");
        return None;
    }
    assert_eq!(home.run(OWNER, &["create"], b"").status, 0);
    assert_eq!(home.run(OWNER, &["put", "0"], &hundred()).status, 0);
    NAMES.iter().for_each(|name| chmod(&home.file(name), mode));
    Some(home)
}

fn chown(path: &Path, owner: u32, group: u32) -> bool {
    let to = format!("{owner}:{group}");
    Command::new("chown").arg(to).arg(path).status().map_or(false, |status| status.success())
}

fn chmod(path: &Path, mode: u32) {
    fs::set_permissions(path, Permissions::from_mode(mode)).unwrap();
}

impl Home {
    fn file(&self, name: &str) -> std::path::PathBuf {
        self.folder.file("home").join(name)
    }

    /// The program, with nothing for others in what it makes.
    fn command(&self, words: &[&str]) -> Command {
        let mut command = Command::new("sh");
        command.args(["-c", "umask 077; exec \"$@\"", "sh"]).args(emulator());
        command.arg(&self.program).args(words).current_dir(self.folder.file("home"));
        command
    }

    /// Runs it as this user, in the owner's group unless it is root.
    fn run(&self, user: u32, words: &[&str], input: &[u8]) -> Ended {
        let group = if user == 0 { 0 } else { OWNER };
        let mut command = self.command(words);
        command.uid(user).gid(group);
        command.stdin(Stdio::piped()).stdout(Stdio::piped()).stderr(Stdio::piped());
        let mut child = match command.spawn() {
            Ok(child) => child,
            Err(error) => return Ended { status: -1, out: vec![], err: error.to_string() },
        };
        let _ = child.stdin.take().unwrap().write_all(input);
        Ended::from(child.wait_with_output().unwrap())
    }

    /// All files still belong to the owner, with this mode.
    fn is_kept(&self, mode: u32) {
        for name in NAMES {
            let about = self.file(name).metadata().unwrap();
            let found = (about.uid(), about.gid(), about.mode() & 0o7777);
            assert_eq!(found, (OWNER, OWNER, mode), "{name}");
        }
    }
}

#[test]
fn root_changes_a_user_s_store() {
    at_home("root", 0o600, |home| {
        fs::remove_file(home.file("store.records.tj-lock")).unwrap();
        home.run(0, &["put", "0"], b"by root").gives("blob 0 has 7 bytes\n");
        home.is_kept(0o600);
        home.run(OWNER, &["get", "0"], b"").gives("by root");
        home.run(OWNER, &["put", "0"], b"by its owner").gives("blob 0 has 12 bytes\n");
        home.is_kept(0o600);
    });
}

/// The folder lets nobody take away what others made, and root's command left its
/// files behind, which the owner cannot even read.
#[test]
fn what_root_left_blocks_nobody() {
    at_home("left", 0o640, |home| {
        chmod(&home.folder.file("home"), 0o1777);
        assert!(chown(&home.folder.file("home"), 0, 0));
        for name in ["store.pool.tj-new", "store.records.tj-new", "store.records.tj-log.tj-new"] {
            fs::write(home.file(name), b"left").unwrap();
            chmod(&home.file(name), 0o600);
        }
        assert_eq!(home.run(OWNER, &["get", "0"], b"").out, hundred());
        home.run(OWNER, &["put", "0"], b"still mine").gives("blob 0 has 10 bytes\n");
        home.run(OWNER, &["get", "0"], b"").gives("still mine");
        home.is_kept(0o640);
    });
}

#[test]
fn a_friend_of_the_group_takes_nothing_away() {
    at_home("friend", 0o660, |home| {
        chmod(&home.folder.file("home"), 0o770);
        home.run(FRIEND, &["put", "0"], b"by a friend").gives("blob 0 has 11 bytes\n");
        home.is_kept(0o660);
        home.run(OWNER, &["put", "0"], b"by the owner").gives("blob 0 has 12 bytes\n");
        home.is_kept(0o660);
    });
}

/// An output that belongs to somebody stays his.
#[test]
fn root_writes_a_user_s_output() {
    at_home("output", 0o600, |home| {
        fs::write(home.file("out"), b"before").unwrap();
        assert!(chown(&home.file("out"), OWNER, OWNER));
        chmod(&home.file("out"), 0o640);
        home.run(0, &["get", "0", "out"], b"").gives("100 bytes to out\n");
        let about = home.file("out").metadata().unwrap();
        assert_eq!((about.uid(), about.gid(), about.mode() & 0o7777), (OWNER, OWNER, 0o640));
    });
}

/// The group gets nothing of what it is not the group of.
#[test]
fn a_stranger_s_lock() {
    at_home("stranger", 0o666, |home| {
        chmod(&home.folder.file("home"), 0o777);
        fs::remove_file(home.file("store.records.tj-lock")).unwrap();
        let mut command = home.command(&["get", "0"]);
        assert!(command.uid(FRIEND).gid(FRIEND).output().unwrap().status.success());
        let about = home.file("store.records.tj-lock").metadata().unwrap();
        assert_eq!((about.uid(), about.gid(), about.mode() & 0o7777), (FRIEND, FRIEND, 0o606));
        home.run(OWNER, &["put", "0"], b"on it goes").gives("blob 0 has 10 bytes\n");
    });
}

/// A reader who may not even open the lock reads what does not change meanwhile.
#[test]
fn a_reader_without_the_lock() {
    at_home("reader", 0o644, |home| {
        chmod(&home.folder.file("home"), 0o755);
        chmod(&home.file("store.records.tj-lock"), 0o600);
        let mut command = home.command(&["get", "0"]);
        assert_eq!(command.uid(FRIEND).gid(FRIEND).output().unwrap().stdout, hundred());
    });
}

/// Files that may be written in a folder that may not: they are written over.
#[test]
fn a_folder_that_may_not_be_written() {
    at_home("folder", 0o600, |home| {
        let carrier = home.folder.file("carrier");
        fs::create_dir(&carrier).unwrap();
        for name in ["pool", "out"] {
            fs::copy(home.file("store.pool"), carrier.join(name)).unwrap();
            assert!(chown(&carrier.join(name), OWNER, OWNER));
        }
        let place = ["--pool", "../carrier/pool"];
        let words = [&["put", "0"][..], &place].concat();
        home.run(OWNER, &words, b"written over").gives("blob 0 has 12 bytes\n");
        let words = [&["get", "0", "../carrier/out"][..], &place].concat();
        home.run(OWNER, &words, b"").gives("12 bytes to ../carrier/out\n");
        assert_eq!(fs::read(carrier.join("out")).unwrap(), b"written over");
        assert_eq!(fs::read_dir(carrier).unwrap().count(), 2);
    });
}
