//! Every bad slot is listed, with what it hurts and what still reads.

use crate::support::Folder;

/// Blob 0 in slots 0 to 3, blob 4 in slot 4; three leaves are damaged, and a free
/// slot has a byte.
fn damaged(name: &str) -> Folder {
    let folder = Folder::with_blob(name);
    folder.run(&["create"]).gives("4\n");
    folder.spoil(64, &[0]);
    folder.spoil(2 * 64 + 8, &[1]);
    folder.spoil(3 * 64 + 4, &[9]);
    folder.spoil(7 * 64, &[1]);
    folder
}

const DAMAGE: [&str; 4] = [
    "refused 4: slot 1 is spoiled",
    "refused 6: slot 2 was rolled back",
    "refused 5: slot 3 was moved",
    "refused 9: slot 7 was reintroduced",
];

#[test]
fn a_sound_store() {
    let folder = Folder::with_blob("check_sound");
    folder.run(&["create"]).gives("4\n");
    folder.run(&["check"]).gives("no bad slot is found\nblobs that read whole: 0 and 4\n");
    let rest = r#""bad":[],"reads":[0,4],"refused":[],"cut_off":[]}"#;
    let object = format!("{{\"ok\":true,\"command\":\"check\",{rest}\n");
    folder.run(&["check", "--json"]).gives(&object);
}

#[test]
fn all_damage_at_once() {
    let folder = damaged("check_all");
    let found = folder.run(&["check"]);
    let [first, second, third, fourth] = DAMAGE;
    let lines = [
        &format!("{first}; hurts blob 0"),
        &format!("{second}; hurts blob 0"),
        &format!("{third}; hurts blob 0"),
        &format!("{fourth}; hurts no blob"),
        "blobs that read whole: 4",
        "blobs that are refused: 0",
        &format!("audit: {first}; no change is made until it passes"),
    ];
    assert_eq!(found.text().lines().collect::<Vec<_>>(), lines);
    assert_eq!((found.status, found.err.as_str()), (4, ""));
    folder.run(&["audit"]).fails(4, first);
    folder.run(&["create"]).fails(4, first);
    folder.run(&["get", "4"]).gives("");
}

#[test]
fn for_machines() {
    let folder = damaged("check_json");
    let found = folder.run(&["check", "--json"]);
    assert_eq!((found.status, found.err.as_str()), (4, ""));
    let head =
        r#"{"ok":false,"command":"check","status":4,"refusal":4,"words":"spoiled","slot":1,"#;
    assert!(found.text().starts_with(head), "{found:?}");
    let bad = [
        r#""bad":[{"slot":1,"refusal":4,"words":"spoiled","hurts":[0]}"#,
        r#"{"slot":2,"refusal":6,"words":"rolled back","hurts":[0]}"#,
        r#"{"slot":3,"refusal":5,"words":"moved","hurts":[0]}"#,
        r#"{"slot":7,"refusal":9,"words":"reintroduced","hurts":[]}]"#,
        r#""reads":[4],"refused":[0],"cut_off":[]}"#,
    ];
    assert!(found.text().ends_with(&format!("{}\n", bad.join(","))), "{found:?}");
}

#[test]
fn below_a_bad_root() {
    let folder = Folder::with_blob("check_below");
    folder.spoil(8, &[1]);
    folder.spoil(2 * 64, &[0]);
    let found = folder.run(&["check"]);
    let wanted = "\
refused 6: slot 0 was rolled back; hurts blob 0
refused 4: slot 2 is spoiled; cut off from blob 0
cut off, but not bad: slots 1 and 3
blobs that read whole: none
blobs that are refused: 0
audit: refused 6: slot 0 was rolled back; no change is made until it passes
";
    assert_eq!((found.status, found.text(), found.err.as_str()), (6, wanted, ""));
    let found = folder.run(&["check", "--json"]);
    assert!(found.text().ends_with(",\"cut_off\":[1,3]}\n"), "{found:?}");
    let svg = folder.run(&["draw"]);
    assert!(svg.text().contains("slot 1: leaf, cut off, version"), "{svg:?}");
    assert!(svg.text().contains("Cut off, but not bad: 2 slots."));
}

#[test]
fn broken_records() {
    let folder = damaged("check_records");
    let mut records = folder.read("store.records");
    for slot in [5, 9] {
        records[slot * 12] = 0;
    }
    folder.write("store.records", &records);
    let found = folder.run(&["check"]);
    assert_eq!(found.status, 2);
    for slot in [5, 9] {
        let words = format!("refused 2: slot {slot} has a broken record; hurts blobs 0 and 4\n");
        assert!(found.text().contains(&words), "{found:?}");
    }
    for words in DAMAGE {
        assert!(found.text().contains(words), "{words} in {found:?}");
    }
    assert!(found
        .text()
        .contains("blobs that read whole: none\nblobs that are refused: 0 and 4\n"));
}

#[test]
fn lengths_that_fit_no_store() {
    let folder = damaged("check_lengths");
    folder.write("store.pool", b"short");
    folder.run(&["check"]).fails(1, "refused 1: the lengths of pool and records do not fit");
}

/// The picture has each of them in red and in words.
#[test]
fn the_picture_shows_the_same() {
    let folder = damaged("check_draw");
    let svg = folder.run(&["draw"]);
    for words in DAMAGE {
        assert_eq!(
            svg.text().matches(words).count(),
            1 + usize::from(words == DAMAGE[0]),
            "{words}"
        );
    }
    let red: Vec<&str> = svg
        .text()
        .split("<g><title>")
        .filter(|group| group.contains("fill=\"#c3272b\" stroke=\"#8e1519\""))
        .filter_map(|group| group.split(", version").next())
        .collect();
    let slots =
        ["slot 1: 4 spoiled", "slot 2: 6 rolled back", "slot 3: 5 moved", "slot 7: 9 reintroduced"];
    for slot in slots {
        assert!(red.contains(&slot), "{slot} in {red:?}");
    }
}
