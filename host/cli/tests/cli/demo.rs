//! The demo goes as it is told.

use crate::support::Folder;

#[test]
fn it_tells_of_three_nights() {
    let folder = Folder::new("demo");
    let demo = folder.run(&["demo"]);
    assert_eq!((demo.status, demo.err.as_str()), (0, ""));
    let parts = [
        "THE FIRST NIGHT",
        "A store without versions:  a41f  crash in the decoder     harmless\n",
        "refused 6: slot 2 was rolled back",
        "THE SECOND NIGHT",
        "A store without versions:  e3b8  is not in the list\n",
        "refused 5: slot 3 was moved",
        "THE THIRD NIGHT",
        "A store without versions:  e3b8  lost write in the cache  ignore it\n",
        "$ tjornsaki get 4 --records nights.records --pool night-3.pool\n    tjornsaki: refused 3: ",
        "refused 9: slot 4 was reintroduced",
        "THE MORNING AFTER",
        "sound: 5 of 8 slots in use",
    ];
    let mut rest = demo.text();
    for part in parts {
        let place = rest.find(part).unwrap_or_else(|| panic!("{part}"));
        rest = &rest[place + part.len()..];
    }
    assert!(demo.text().lines().all(|line| line.chars().count() <= 80));
    assert!(folder.names().is_empty());
}

/// Each command line that the demo shows, with what it says that is answered.
fn shown(text: &str) -> Vec<(Vec<&str>, String)> {
    let mut found = Vec::new();
    for (place, line) in text.match_indices("    $ tjornsaki ") {
        let mut lines = text[place + line.len()..].lines();
        let words = lines.next().unwrap().split(' ').collect();
        let answer = lines.take_while(|line| !line.is_empty());
        let answer: Vec<&str> = answer.map(|line| line.strip_prefix("    ").unwrap()).collect();
        found.push((words, answer.join("\n") + "\n"));
    }
    found
}

#[test]
fn every_command_answers_as_it_is_shown() {
    let folder = Folder::new("demo_shown");
    let demo = folder.run(&["demo", "--out", "."]);
    assert_eq!((demo.status, demo.err.as_str()), (0, ""));
    let commands = shown(demo.text());
    assert_eq!(commands.len(), demo.text().matches("$ tjornsaki").count());
    let mut refused = Vec::new();
    for (words, answer) in &commands {
        let found = folder.run(words);
        assert_eq!(*answer, format!("{}{}", found.text(), found.err), "{words:?}");
        refused.push(found.status);
    }
    assert_eq!(refused, [0, 0, 0, 0, 6, 5, 3, 9, 0, 0]);
}

/// Nothing else is said of this store: a number of a refusal stands in an answer.
#[test]
fn no_refusal_is_only_told() {
    let folder = Folder::new("demo_told");
    let demo = folder.run(&["demo"]);
    for line in demo.text().lines().filter(|line| line.contains("refused")) {
        assert!(line.starts_with("    tjornsaki: refused "), "{line}");
    }
    let written = folder.run(&["demo", "--out", "files"]);
    assert_eq!(written.text(), demo.text());
    let slots = "its root in slot 0 and its lines in slots 1 to 3 and 5. Slot 4\nheld";
    assert!(demo.text().contains(slots));
    let picture = String::from_utf8(folder.read("files/night-0.svg")).unwrap();
    let roles = ["root", "leaf", "leaf", "leaf", "free", "leaf", "free", "free"];
    for (slot, role) in roles.iter().enumerate() {
        assert!(picture.contains(&format!("slot {slot}: {role}, version")), "{slot}");
    }
}

#[test]
fn its_files_can_be_tried() {
    let folder = Folder::new("demo_files");
    let demo = folder.run(&["demo", "--out", "a/b"]);
    assert_eq!((demo.status, demo.err.as_str()), (0, ""));
    let audit = |night: &str| {
        let pool = format!("a/b/night-{night}.pool");
        folder.run(&["audit", "--records", "a/b/nights.records", "--pool", &pool])
    };
    audit("0").gives("sound: 5 of 8 slots in use\n");
    audit("1").fails(6, "refused 6: slot 2 was rolled back");
    audit("2").fails(5, "refused 5: slot 3 was moved");
    audit("3").fails(9, "refused 9: slot 4 was reintroduced");
    let shown_in_readme = include_bytes!("../../../../docs/night.svg");
    assert_eq!(folder.read("a/b/night-1.svg"), shown_in_readme);
    for (night, words) in [("1", "6 rolled back"), ("2", "5 moved"), ("3", "9 reintroduced")] {
        let picture = folder.read(&format!("a/b/night-{night}.svg"));
        assert!(String::from_utf8(picture).unwrap().contains(words));
    }
}

#[test]
fn for_machines() {
    let folder = Folder::new("demo_json");
    let demo = folder.run(&["demo", "--json"]);
    let old = r#"{"ok":true,"command":"demo","nights":[{"block":"old","without_versions":"a41f "#;
    assert!(demo.status == 0 && demo.text().starts_with(old), "{demo:?}");
    let parts = [
        r#""commands":[{"command":"tjornsaki get 0 --records nights.records --pool night-1.pool""#,
        r#","status":6,"output":"tjornsaki: refused 6: slot 2 was rolled back\n"}]}"#,
    ];
    assert!(demo.text().contains(&parts.concat()), "{demo:?}");
}

#[test]
fn a_folder_that_cannot_be_made() {
    let folder = Folder::new("demo_bad");
    folder.write("file", b"file");
    let demo = folder.run(&["demo", "--out", "file/x"]);
    demo.fails(74, "cannot make file/x");
}
