//! Answers for machines: one object, whatever happens.

use crate::support::{Ended, Folder};

/// One line on standard output, nothing on standard error.
#[track_caller]
fn is(ended: &Ended, status: i32, object: &str) {
    let found = (ended.status, ended.text(), ended.err.as_str());
    assert_eq!(found, (status, format!("{object}\n").as_str(), ""));
}

#[test]
fn successes() {
    let folder = Folder::new("json");
    let run = |words: &[&str]| folder.run_with(&[&["--json"], words].concat(), b"ab");
    is(&run(&["init", "--slots", "4"]), 0, r#"{"ok":true,"command":"init","slots":4}"#);
    is(&run(&["create"]), 0, r#"{"ok":true,"command":"create","root":0}"#);
    is(&run(&["put", "0"]), 0, r#"{"ok":true,"command":"put","root":0,"length":2}"#);
    let written = r#"{"ok":true,"command":"write","root":0,"offset":0,"size":2}"#;
    is(&run(&["write", "0", "0"]), 0, written);
    is(&run(&["length", "0"]), 0, r#"{"ok":true,"command":"length","root":0,"length":2}"#);
    let got = r#"{"ok":true,"command":"get","root":0,"offset":0,"size":2,"hex":"6162"}"#;
    is(&run(&["get", "0"]), 0, got);
    let saved = r#"{"ok":true,"command":"get","root":0,"offset":1,"size":1}"#;
    is(&run(&["get", "0", "out", "--offset", "1"]), 0, saved);
    let shown =
        r#"{"ok":true,"command":"show","root":0,"leaf":0,"offset":0,"size":2,"hex":"6162"}"#;
    is(&run(&["show", "0", "0"]), 0, shown);
    is(&run(&["resize", "0", "1"]), 0, r#"{"ok":true,"command":"resize","root":0,"length":1}"#);
    let row = r#"{"root":0,"version":4,"length":1,"leaves":1,"blocks":1}"#;
    is(&run(&["ls"]), 0, &format!(r#"{{"ok":true,"command":"ls","blobs":[{row}]}}"#));
    is(&run(&["audit"]), 0, r#"{"ok":true,"command":"audit","live":1,"slots":4}"#);
    is(&run(&["draw", "--out", "x.svg"]), 0, r#"{"ok":true,"command":"draw","slots":4}"#);
    let drawn = run(&["draw"]);
    assert!(drawn.text().starts_with(r#"{"ok":true,"command":"draw","slots":4,"svg":"<svg "#));
    is(&run(&["delete", "0"]), 0, r#"{"ok":true,"command":"delete","root":0}"#);
}

#[test]
fn refusals() {
    let folder = Folder::with_blob("json_refused");
    let head = r#"{"ok":false,"command":"get","status":3,"refusal":3,"words":"not a root""#;
    let more = r#""slot":null,"root":9,"slots":16,"#;
    let rest = r#""message":"refused 3: slot 9 is not a root; `tjornsaki ls` lists the roots"}"#;
    is(&folder.run(&["get", "9", "--json"]), 3, &format!("{head},{more}{rest}"));
    let head = r#"{"ok":false,"command":"resize","status":11,"refusal":11,"words":"no room","#;
    let more = r#""slot":null,"needed":20,"usable":12,"#;
    let rest = r#""message":"refused 11: no room, 20 new blocks needed and 12 slots usable"}"#;
    is(&folder.run(&["resize", "0", "1000", "--json"]), 11, &format!("{head}{more}{rest}"));
    folder.spoil(2 * 64 + 8, &[1]);
    let slot = r#""status":6,"refusal":6,"words":"rolled back","slot":2,"message":"refused 6: slot 2 was rolled back""#;
    let audit = folder.run(&["audit", "--json"]);
    is(&audit, 6, &format!(r#"{{"ok":false,"command":"audit",{slot}}}"#));
    let list = folder.run(&["ls", "--json"]);
    let row = r#"{"root":0,"version":2,"refusal":6,"words":"rolled back","slot":2}"#;
    is(&list, 6, &format!(r#"{{"ok":false,"command":"ls",{slot},"blobs":[{row}]}}"#));
}

#[test]
fn other_failures() {
    let folder = Folder::new("json_failed");
    let missing = folder.run(&["ls", "--json"]);
    assert!(missing.text().starts_with(r#"{"ok":false,"command":"ls","status":66,"message":""#));
    assert_eq!((missing.status, missing.err.as_str()), (66, ""));
    let usage = folder.run(&["--json", "get", "\"x\""]);
    let words = r#"ROOT is a number from 0 on, not `\"x\"`; `tjornsaki get --help` tells more"#;
    let object = r#"{"ok":false,"command":"get","status":64,"message":""#;
    is(&usage, 64, &format!("{object}{words}\"}}"));
    let unknown = folder.run(&["frob", "--json"]);
    assert!(unknown.text().starts_with(r#"{"ok":false,"command":null,"status":64,"#));
}
