//! Numbers that are none, or too large.

use crate::support::Folder;

const COMMANDS: [&[&str]; 9] = [
    &["length", "?"],
    &["put", "?"],
    &["get", "?"],
    &["write", "?", "0"],
    &["write", "0", "?"],
    &["resize", "?", "5"],
    &["resize", "0", "?"],
    &["show", "0", "?"],
    &["delete", "?"],
];

#[test]
fn not_a_number() {
    let folder = Folder::with_blob("not_a_number");
    let before = folder.store();
    let words = ["x", "", "1.5", "0x10", "+1", "1e3", " 1", "-1", "99999999999999999999"];
    for word in words {
        for command in COMMANDS {
            let command: Vec<&str> =
                command.iter().map(|part| if *part == "?" { word } else { part }).collect();
            let ended = folder.run(&command);
            ended.fails(64, "--help` tells more");
        }
        folder.run(&["init", "--force", "--slots", word]).fails(64, "--slots");
    }
    assert_eq!(folder.store(), before);
}

#[test]
fn words_tell_what_is_wrong() {
    let folder = Folder::with_blob("number_words");
    folder.run(&["length", "x"]).fails(64, "ROOT is a number from 0 on, not `x`");
    folder.run(&["resize", "0", "-5"]).fails(64, "numbers are not negative");
    let huge = "18446744073709551616";
    folder.run(&["show", "0", huge]).fails(64, "LEAF is at most 18446744073709551615");
}

#[test]
fn huge_numbers_are_refused() {
    let folder = Folder::with_blob("huge");
    let before = folder.store();
    for huge in
        ["18446744073709551615", "18446744073709551614", "4294967296", "9223372036854775808"]
    {
        for command in [&["length", huge][..], &["get", huge], &["put", huge], &["delete", huge]] {
            folder.run(command).fails(3, "refused 3");
        }
        folder.run(&["resize", "0", huge]).fails(11, "refused 11");
        folder.run(&["show", "0", huge]).fails(10, "refused 10");
        folder.run_with(&["write", "0", huge], b"ab").fails(10, "refused 10");
        folder.run(&["get", "0", "--offset", huge]).fails(10, "refused 10");
        folder.run(&["get", "0", "--size", huge]).fails(10, "refused 10");
    }
    assert_eq!(folder.store(), before);
}

/// To 65,536: until pools could be larger, 1,025 was refused here.
#[test]
fn slots_from_1_to_65536() {
    let folder = Folder::new("slots");
    for slots in ["0", "65537", "18446744073709551615"] {
        let ended = folder.run(&["init", "--slots", slots]);
        ended.fails(64, &format!("--slots takes 1 to 65536, not {slots}"));
    }
    assert!(folder.names().is_empty());
    assert!(folder.run(&["init", "--help"]).text().contains("how many slots, 1 to 65536 (16)"));
    folder.run(&["init", "--slots", "1024"]).gives("1024 free slots\n");
    folder.run(&["create"]).gives("0\n");
    folder.run(&["resize", "0", "44977"]).fails(11, "refused 11");
    folder.run(&["resize", "0", "44976"]).gives("blob 0 has 44976 bytes\n");
    folder.run(&["audit"]).gives("sound: 1024 of 1024 slots in use\n");
    let folder = Folder::with_store("slots_1025", 1_025);
    folder.run(&["create"]).gives("0\n");
    folder.run(&["resize", "0", "44977"]).gives("blob 0 has 44977 bytes\n");
    folder.run(&["audit"]).gives("sound: 1025 of 1025 slots in use\n");
}
