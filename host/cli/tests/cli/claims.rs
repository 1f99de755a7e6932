//! What help and README say that the store does not notice, it does not notice.
//! A later request closes this; then these tests change with the words.

use crate::support::Folder;

const README: &str = include_str!("../../../../README.md");

/// One line, however the text is broken into lines.
fn flat(text: &str) -> String {
    text.split_whitespace().collect::<Vec<_>>().join(" ")
}

#[test]
fn the_words_are_there() {
    let folder = Folder::new("claims_words");
    let help = flat(folder.run(&["--help"]).text());
    for words in [
        "old, moved, or after it was deleted",
        "Payload that was forged or flipped under a right head passes",
        "so does the pool of another store that is at the same versions",
        "If pool and records are put back together, no one can tell",
    ] {
        assert!(help.contains(words), "{words}");
    }
    for claim in ["notices when a block is damaged", "every block is checked"] {
        assert!(!help.contains(claim), "{claim}");
    }
    let readme = flat(README);
    let told = readme.find("What it does not notice").expect("README says what is not noticed");
    assert!(told < readme.find("## A tour").unwrap(), "before the tour");
    for words in ["forged or flipped", "another store at the same versions", "put back together"] {
        assert!(readme[told..].contains(words), "{words}");
    }
}

#[test]
fn flipped_payload_passes() {
    let folder = Folder::with_store("claims_flipped", 4);
    folder.run(&["create"]).gives("0\n");
    folder.run_with(&["put", "0"], b"harmless").gives("blob 0 has 8 bytes\n");
    folder.spoil(16, b"H");
    folder.run(&["get", "0"]).gives("Harmless");
    folder.run(&["audit"]).gives("sound: 1 of 4 slots in use\n");
}

#[test]
fn another_store_at_the_same_versions_passes() {
    let [one, other] = ["this", "that"].map(|word| {
        let folder = Folder::with_store(&format!("claims_{word}"), 4);
        folder.run(&["create"]).gives("0\n");
        folder.run_with(&["put", "0"], word.as_bytes()).gives("blob 0 has 4 bytes\n");
        folder
    });
    one.write("store.pool", &other.read("store.pool"));
    one.run(&["get", "0"]).gives("that");
    one.run(&["audit"]).gives("sound: 1 of 4 slots in use\n");
}

/// What `init --help` says of versions that start again.
#[test]
fn a_forgotten_history_passes() {
    let folder = Folder::with_store("claims_forgotten", 4);
    let fill = |text: &str| {
        folder.run(&["create"]).gives("0\n");
        folder.run_with(&["put", "0"], text.as_bytes());
    };
    fill("the old store");
    let old = folder.read("store.pool");
    folder.run(&["init", "--slots", "4", "--force", "--forget-history"]).gives("4 free slots\n");
    fill("the new store");
    folder.write("store.pool", &old);
    folder.run(&["get", "0"]).gives("the old store");
    let help = flat(folder.run(&["init", "--help"]).text());
    assert!(help.contains("a pool of the old store, kept by somebody, may then pass"));
}
