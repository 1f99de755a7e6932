//! In which order a change reaches the disk, as strace sees it: no byte of it is on
//! the pool's side before the disk has the log, and the log goes last.

use crate::support::{able_to_trace, skipped, Ended, Folder};
use std::collections::BTreeMap;
use std::fs;

const PLACE: [&str; 4] = ["--records", "safe/records", "--pool", "carrier/pool"];

/// Tries something on a store on two sides with one empty blob, if strace can be
/// used.
fn on_two_sides(name: &str, test: impl Fn(&Folder)) {
    if !able_to_trace() {
        return skipped("strace is missing, or may not be used");
    }
    let folder = Folder::new(name);
    for side in ["safe", "carrier"] {
        fs::create_dir(folder.file(side)).unwrap();
    }
    folder.write("new", b"new");
    folder.run(&[&["init"][..], &PLACE].concat()).gives("16 free slots\n");
    folder.run(&[&["create"][..], &PLACE].concat()).gives("0\n");
    test(&folder);
}

/// What strace says of a command.
fn trace(folder: &Folder, words: &[&str]) -> String {
    let file = folder.file("trace");
    let mut command = folder.traced(&["-o", file.to_str().unwrap()], &[words, &PLACE].concat());
    let ended = Ended::from(command.output().unwrap());
    assert_eq!(ended.status, 0, "{ended:?}");
    fs::read_to_string(file).unwrap()
}

/// The steps on files of the store, each a word and a name; what is written to
/// standard output is a step too.
fn steps(folder: &Folder, trace: &str) -> Vec<String> {
    let here = fs::canonicalize(&folder.path).unwrap().to_str().unwrap().to_string() + "/";
    let mut open: BTreeMap<String, String> = BTreeMap::new();
    let mut steps = Vec::new();
    for line in trace.lines().filter_map(|line| line.split_once(' ')).map(|(_, line)| line.trim()) {
        let (call, rest) = line.split_once('(').unwrap_or((line, ""));
        let named: Vec<&str> = rest.split('"').skip(1).step_by(2).collect();
        let local = |path: &&str| path.strip_prefix(&here).map(String::from);
        let (went_well, number) = match rest.rsplit_once(" = ") {
            Some((_, answer)) => (!answer.starts_with('-'), answer.trim().to_string()),
            None => continue,
        };
        let first = rest.split([',', ')']).next().unwrap_or_default();
        // Some processors have them under longer names.
        let call =
            ["rename", "unlink"].into_iter().find(|name| call.starts_with(name)).unwrap_or(call);
        let path = match call {
            "openat" if went_well => {
                open.insert(number, named.first().and_then(local).unwrap_or_default());
                continue;
            }
            "fcntl" if rest.starts_with("1, F_DUPFD") => {
                open.insert(number, "output".into());
                continue;
            }
            "write" | "fsync" => open.get(first).cloned(),
            "rename" | "unlink" => named.last().and_then(local),
            _ => continue,
        };
        let path = path.filter(|path| went_well && !path.is_empty());
        steps.extend(path.map(|path| format!("{call} {path}")));
    }
    steps
}

#[test]
fn a_change() {
    on_two_sides("order", |folder| {
        let trace = trace(folder, &["put", "0", "new"]);
        let wanted = [
            "write safe/records.tj-log.tj-new",
            "fsync safe/records.tj-log.tj-new",
            "rename safe/records.tj-log",
            "fsync safe",
            "write carrier/pool.tj-new",
            "fsync carrier/pool.tj-new",
            "rename carrier/pool",
            "fsync carrier",
            "write safe/records.tj-new",
            "fsync safe/records.tj-new",
            "rename safe/records",
            "fsync safe",
            "unlink safe/records.tj-log",
            "write output",
        ];
        assert_eq!(steps(folder, &trace), wanted);
        let begun =
            trace.lines().filter(|line| line.contains(".tj-new\", O_WRONLY|O_CREAT|O_EXCL"));
        let closed = begun.filter(|line| line.contains(", 0600) = ")).count();
        assert_eq!(closed, 3, "until they have their owner, nobody else can read them");
    });
}

/// Kills a change once it is sure, and before it reaches the pool.
fn cut(folder: &Folder) {
    let kill = ["-o", "/dev/null", "-e", "inject=/^rename:signal=KILL:when=2"];
    let words = [&["put", "0", "new"][..], &PLACE].concat();
    assert_eq!(Ended::from(folder.traced(&kill, &words).output().unwrap()).status, -1);
    assert!(folder.file("safe/records.tj-log").exists());
}

/// A disk fails before the change is sure, at the log's rename, or after it, at the
/// pool's: machines are told whether it is made.
#[test]
fn a_change_that_fails() {
    on_two_sides("order_fails", |folder| {
        let words = [&["put", "0", "new", "--json"][..], &PLACE].concat();
        for (nth, made) in [(1, false), (2, true)] {
            let fail = format!("inject=/^rename:error=EIO:when={nth}");
            let mut command = folder.traced(&["-o", "/dev/null", "-e", &fail], &words);
            let ended = Ended::from(command.output().unwrap());
            assert_eq!((ended.status, ended.err.as_str()), (74, ""));
            let told = "; the change is made, and the next change carries it on\",\"done\":true}\n";
            assert_eq!(ended.text().ends_with(told), made, "{ended:?}");
            assert_eq!(ended.text().contains("\"done\":"), made, "{ended:?}");
            let found = folder.run(&[&["get", "0"][..], &PLACE].concat());
            assert_eq!(found.text(), if made { "new" } else { "" });
        }
    });
}

/// What is read from a log is sure, too, before it is told.
#[test]
fn a_read_from_the_log() {
    on_two_sides("order_read", |folder| {
        cut(folder);
        let trace = trace(folder, &["get", "0"]);
        assert_eq!(steps(folder, &trace), ["fsync safe", "write output"]);
    });
}

/// All is moved while a log waits: the pool is known by what it held.
#[test]
fn a_store_that_moves_with_its_log() {
    on_two_sides("order_moved", |folder| {
        cut(folder);
        for side in ["safe", "carrier"] {
            fs::rename(folder.file(side), folder.file(&format!("new-{side}"))).unwrap();
        }
        let place = ["--records", "new-safe/records", "--pool", "new-carrier/pool"];
        folder.run(&[&["get", "0"][..], &place].concat()).gives("new");
        folder.run(&[&["create"][..], &place].concat()).gives("1\n");
        folder.run(&[&["get", "0"][..], &place].concat()).gives("new");
        assert!(!folder.file("new-safe/records.tj-log").exists());
    });
}
