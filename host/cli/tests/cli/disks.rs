//! A full disk and a read-only one, made of memory in a mount space of the
//! test's own. Without the right to make one, these tests are skipped.

use crate::support::{shell_function, skipped, there_is, Folder};
use std::process::{Command, Output};

/// Runs a script with `$d`, a folder to mount a disk on, and `t`, the program.
fn apart(folder: &Folder, script: &str) -> Option<Output> {
    std::fs::create_dir(folder.file("disk")).unwrap();
    let run = |script: &str| {
        let disk = folder.file("disk");
        let script = format!("{}\nd='{}'\n{script}", shell_function(), disk.display());
        let words = ["--map-root-user", "--mount", "bash", "-c", script.as_str()];
        Command::new("unshare").args(words).current_dir(&folder.path).output()
    };
    let able = there_is("bash") && there_is("unshare");
    let tried =
        able && run(r#"mount -t tmpfs t "$d""#).map_or(false, |tried| tried.status.success());
    if !tried {
        skipped("no disk can be mounted here");
        return None;
    }
    Some(run(script).unwrap())
}

/// Disks from just large enough for a store of 1,024 slots to large enough for
/// a change of it, which needs as many pages twice again: for the log, and for
/// the files that take the place of the old ones.
const FULL: &str = r#"
set -e
t init --slots 1024 >&2; t create >&2; head -c 40000 /dev/urandom | t put 0 >&2
head -c 44976 /dev/urandom > input
page=$(getconf PAGESIZE)
store=$(((65536 + page - 1) / page + (12288 + page - 1) / page))
for pages in $(seq $((store + 1)) 3 $((3 * store + 6))); do
    mount -t tmpfs -o nr_blocks=$pages t "$d"
    cp store.pool store.records "$d"
    status=0
    (cd "$d"; t put 0 ../input) > said 2>&1 || status=$?
    if [ $status = 0 ]; then
        (cd "$d"; t get 0) | cmp - input
    else
        cmp "$d"/store.pool store.pool
        cmp "$d"/store.records store.records
        grep -q "cannot write .*: No space left" said
    fi
    if ls "$d" | grep tj- | grep -v tj-lock; then exit 1; fi
    umount "$d"
    echo $status
done
"#;

#[test]
fn a_full_disk_changes_nothing() {
    fails_until_there_is_room("full_disk", FULL);
}

/// A script that prints a status for each of some disks, small ones first.
fn fails_until_there_is_room(name: &str, script: &str) {
    let folder = Folder::new(name);
    let output = match apart(&folder, script) {
        Some(output) => output,
        None => return,
    };
    let said = String::from_utf8_lossy(&output.stdout).into_owned();
    assert!(output.status.success(), "{output:?}");
    let statuses: Vec<&str> = said.lines().collect();
    let full = statuses.iter().take_while(|status| **status == "74").count();
    assert!(full > 0 && full < statuses.len(), "{statuses:?}");
    assert!(statuses[full..].iter().all(|status| *status == "0"), "{statuses:?}");
}

/// An output of 40,000 bytes, on disks from too small to large enough for it and
/// for the file whose place it takes.
const OUTPUT: &str = r#"
set -e
t init --slots 1024 >&2; t create >&2; head -c 40000 /dev/urandom > input; t put 0 input >&2
for pages in $(seq 1 $((40000 / $(getconf PAGESIZE) + 3))); do
    mount -t tmpfs -o nr_blocks=$pages t "$d"
    echo old > "$d"/out
    status=0
    t get 0 "$d"/out > said 2>&1 || status=$?
    if [ $status = 0 ]; then
        cmp "$d"/out input
    else
        echo old | cmp - "$d"/out
        grep -q "cannot write .*: No space left" said
    fi
    [ "$(ls "$d")" = out ]
    umount "$d"
    echo $status
done
"#;

#[test]
fn an_output_that_does_not_fit_leaves_what_was_there() {
    fails_until_there_is_room("full_output", OUTPUT);
}

const READ_ONLY: &str = r#"
t init >&2; t create >&2; echo hello | t put 0 >&2
mount -t tmpfs t "$d"; cp store.pool store.records "$d"; mount -o remount,ro "$d"
cd "$d"
t get 0 || exit 1
t audit > /dev/null || exit 1
t create; echo $?
t init --force --forget-history; echo $?
cmp store.pool ../store.pool && cmp store.records ../store.records
"#;

#[test]
fn a_read_only_disk_can_be_read() {
    let folder = Folder::new("read_only_disk");
    let output = match apart(&folder, READ_ONLY) {
        Some(output) => output,
        None => return,
    };
    assert_eq!(String::from_utf8_lossy(&output.stdout), "hello\n77\n77\n", "{output:?}");
    assert!(output.status.success(), "{output:?}");
}
