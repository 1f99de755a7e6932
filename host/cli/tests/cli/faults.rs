//! Every change is killed, and its disk fails, at every step that touches a file,
//! with the records on the trusted side and the pool on the carrier's. What lies
//! on the carrier's side at any step is kept. Then the store goes on with another
//! change, and each kept file is handed back as the pool: every reading command
//! refuses it, or answers what is truly stored. While a log waits, each is handed
//! back before the next change too.
//!
//! The steps are found and broken by strace, over the emulator too; without it,
//! or without the right to use it, these tests are skipped.

use crate::support::{able_to_trace, skipped, Ended, Folder};
use std::collections::{BTreeMap, BTreeSet};
use std::fs;

const PLACE: [&str; 4] = ["--records", "safe/records", "--pool", "carrier/pool"];
const SIDES: [&str; 2] = ["safe", "carrier"];
const READS: [&[&str]; 6] =
    [&["ls"], &["length", "0"], &["get", "0"], &["show", "0", "0"], &["audit"], &["check"]];

/// What the kernel does for a program's memory, threads and signals, and when it
/// is done with a file: nothing in a file hangs on it.
const NO_STEPS: &str = " arch_prctl brk clone clone3 close execve exit_group fcntl futex getcwd \
    getpid getrandom gettid madvise mmap mprotect mremap munmap poll ppoll prctl prlimit64 rseq \
    rt_sigaction rt_sigprocmask rt_sigreturn sched_getaffinity set_robust_list set_tid_address \
    sigaltstack ";

/// What can change a file, or its name, or its lock. To be killed anywhere else is
/// to be killed at the next one of these.
const CHANGES: &str = " fallocate fchmod fchmodat fchown fchownat flock fsync ftruncate openat \
    pwrite64 rename renameat renameat2 unlink unlinkat write ";

fn is_in(list: &str, call: &str) -> bool {
    list.contains(&format!(" {call} "))
}

/// All files of both sides.
type Files = BTreeMap<String, Vec<u8>>;

/// How two commands end: what blob 0 holds, and every slot and version.
type Look = [(i32, Vec<u8>); 2];

struct Trial {
    folder: Folder,
    words: Vec<&'static str>,
    start: Files,
    /// What is found before the change and after it.
    before: Look,
    after: Look,
    /// Every content that a file on the carrier's side had up to this step. A
    /// change is killed at one step after the other, so that none is left out.
    kept: BTreeSet<Vec<u8>>,
    /// What lay on the trusted side, and contents that were tried with it.
    tried: BTreeSet<(Files, Vec<u8>)>,
    /// What was found in all these files, and what the next change left of them:
    /// the same files are not tried again.
    seen: BTreeMap<Files, (Look, Files)>,
}

impl Trial {
    /// A store that these commands make, and the change to try.
    fn new(name: &str, made: &[&[&str]], words: &[&'static str]) -> Option<Trial> {
        if !able_to_trace() {
            skipped("strace is missing, or may not be used");
            return None;
        }
        let folder = Folder::new(name);
        SIDES.iter().for_each(|side| fs::create_dir(folder.file(side)).unwrap());
        folder.write("first", b"what was never stored");
        folder.write("second", b"what is truly stored!");
        let words = [words, &PLACE].concat();
        let (kept, tried, seen) = (BTreeSet::new(), BTreeSet::new(), BTreeMap::new());
        let (start, before, after) = (Files::new(), Default::default(), Default::default());
        let mut trial = Trial { folder, words, start, before, after, kept, tried, seen };
        for command in made {
            assert_eq!(trial.run(command).status, 0);
            trial.kept.extend(trial.carried());
        }
        trial.start = trial.files();
        trial.before = trial.look();
        Some(trial)
    }

    fn run(&self, command: &[&str]) -> Ended {
        self.folder.run(&[command, &PLACE].concat())
    }

    fn look(&self) -> Look {
        [["get", "0"].as_ref(), &["draw"]].map(|command| {
            let found = self.run(command);
            (found.status, found.out)
        })
    }

    fn reads(&self) -> Vec<Ended> {
        READS.iter().map(|command| self.run(command)).collect()
    }

    fn files(&self) -> Files {
        let mut files = Files::new();
        for side in SIDES {
            for entry in fs::read_dir(self.folder.file(side)).unwrap() {
                let name = format!("{side}/{}", entry.unwrap().file_name().to_str().unwrap());
                files.insert(name.clone(), self.folder.read(&name));
            }
        }
        files
    }

    /// What the files on the carrier's side hold.
    fn carried(&self) -> Vec<Vec<u8>> {
        let files = self.files().into_iter().filter(|(name, _)| name.starts_with("carrier"));
        files.map(|(_, bytes)| bytes).collect()
    }

    /// Leaves these files on both sides, and no others.
    fn lay(&self, files: &Files) {
        self.files().keys().for_each(|name| fs::remove_file(self.folder.file(name)).unwrap());
        files.iter().for_each(|(name, bytes)| self.folder.write(name, bytes));
    }

    /// Runs the change under strace with these words.
    fn traced(&self, words: &[&str]) -> Ended {
        Ended::from(self.folder.traced(words, &self.words).output().unwrap())
    }

    /// The calls of the kernel from the first that names a file of the store on,
    /// each with how many of its name came before it.
    fn steps(&mut self) -> Vec<(String, usize)> {
        let trace = self.folder.file("trace");
        let whole = self.traced(&["-o", trace.to_str().unwrap()]);
        assert_eq!(whole.status, 0, "{whole:?}");
        self.after = self.look();
        let trace = fs::read_to_string(trace).unwrap();
        let main = trace.split_whitespace().next().unwrap_or_default().to_string();
        let (mut counts, mut steps, mut begun) = (BTreeMap::new(), vec![], false);
        for line in trace.lines().filter_map(|line| line.strip_prefix(&main)) {
            let (name, rest) = match line.trim_start().split_once('(') {
                Some(parts) => parts,
                None => continue,
            };
            let count = counts.entry(name.to_string()).or_insert(0);
            *count += 1;
            let named = SIDES.iter().any(|side| rest.contains(&format!("{side}/")));
            begun |= named && !name.starts_with("exec");
            let word = name.chars().all(|letter| letter.is_ascii_alphanumeric() || letter == '_');
            if begun && word && !is_in(NO_STEPS, name) {
                steps.push((name.to_string(), *count));
            }
        }
        steps
    }

    /// The change with one fault; then the store is as before it or as after it,
    /// and the next change goes well. Answers whether the change failed, and what
    /// lay on the carrier's side before the next one.
    fn with_fault(&mut self, fault: &str) -> (bool, Vec<Vec<u8>>) {
        self.lay(&self.start);
        let ended = self.traced(&["-o", "/dev/null", "-e", &format!("inject={fault}")]);
        let (files, carried) = (self.files(), self.carried());
        if !self.seen.contains_key(&files) {
            let found = self.look();
            if files.contains_key("safe/records.tj-log") {
                self.hand_back(carried.clone());
            }
            self.go_on(found[0].0);
            self.seen.insert(files.clone(), (found, self.files()));
        }
        let (found, left) = &self.seen[&files];
        let [before, after] = [self.before == *found, self.after == *found];
        assert!(before || after, "{fault}: {ended:?}: {found:?}");
        assert!(ended.status != 0 || after, "{fault}: {ended:?}");
        let told = ended.err.contains("the change is made");
        assert!(ended.status <= 0 || told == (after && !before), "{fault}: {ended:?}");
        self.lay(left);
        (ended.status != 0, carried)
    }

    /// The next change, which finds and leaves a whole store; `status` is that of
    /// a reading command before it.
    fn go_on(&self, status: i32) {
        if status == 66 {
            assert_eq!(self.run(&["init"]).status, 0);
        }
        if status != 0 {
            self.run(&["create"]).gives("0\n");
        }
        self.run(&["put", "0", "second"]).gives("blob 0 has 21 bytes\n");
        let files = self.files();
        let left: Vec<&str> = files.keys().map(String::as_str).collect();
        assert_eq!(left, ["carrier/pool", "safe/records", "safe/records.tj-lock"]);
    }

    /// Hands back each file that was kept up to now, and these, and leaves the
    /// pool as it was.
    fn hand_back(&mut self, more: Vec<Vec<u8>>) {
        let files = self.files();
        let pool = files.get("carrier/pool").cloned().unwrap_or_default();
        let trusted: Files =
            files.clone().into_iter().filter(|(name, _)| name.starts_with("safe")).collect();
        let tried = &mut self.tried;
        let kept = self.kept.iter().cloned().chain(more);
        let new = kept.filter(|bytes| *bytes != pool);
        let new: Vec<_> =
            new.filter(|bytes| tried.insert((trusted.clone(), bytes.clone()))).collect();
        if new.is_empty() {
            return;
        }
        let truth = self.reads();
        for bytes in new {
            self.folder.write("carrier/pool", &bytes);
            for (true_one, found) in truth.iter().zip(self.reads()) {
                let right = found.status != 0 || found.out == true_one.out;
                assert!(right, "{found:?} where {true_one:?} is stored");
            }
        }
        self.lay(&files);
    }
}

/// Kills the change, and lets its disk fail, at each step.
fn at_every_step(name: &str, made: &[&[&str]], words: &[&'static str]) {
    let mut trial = match Trial::new(name, made, words) {
        Some(trial) => trial,
        None => return,
    };
    let steps = trial.steps();
    let mut failures = 0;
    for (call, nth) in &steps {
        for what in ["signal=KILL", "error=EIO"] {
            if what.ends_with("KILL") && !is_in(CHANGES, call) {
                continue;
            }
            let (failed, carried) = trial.with_fault(&format!("{call}:{what}:when={nth}"));
            failures += usize::from(failed);
            if what.ends_with("KILL") {
                trial.kept.extend(carried.clone());
            }
            trial.hand_back(carried);
        }
    }
    let counts = (steps.len(), failures, trial.seen.len(), trial.tried.len());
    println!("{counts:?}: steps, failures, kinds of files left, files handed back");
    assert!(counts.0 >= 30 && counts.1 >= 40 && counts.2 >= 5 && counts.3 >= 2, "{counts:?}");
}

const STORE: [&[&str]; 3] = [&["init"], &["create"], &["resize", "0", "21"]];

#[test]
fn init() {
    at_every_step("fault_init", &[], &["init"]);
}

#[test]
fn init_by_force() {
    at_every_step("fault_force", &STORE, &["init", "--force", "--forget-history"]);
}

#[test]
fn create() {
    at_every_step("fault_create", &STORE, &["create"]);
}

#[test]
fn put() {
    at_every_step("fault_put", &STORE, &["put", "0", "first"]);
}

#[test]
fn write() {
    at_every_step("fault_write", &STORE, &["write", "0", "0", "first"]);
}

#[test]
fn resize() {
    at_every_step("fault_resize", &STORE, &["resize", "0", "100"]);
}

#[test]
fn delete() {
    at_every_step("fault_delete", &STORE, &["delete", "0"]);
}
