//! Stores of more than 1,024 slots, to the most: every command works there.

use crate::support::{Ended, Folder};

/// The bytes of 60,072 leaves: the longest blob in 65,536 slots.
const LONGEST: usize = 2_883_456;

/// Bytes of which no two leaves, and no two rows, are alike.
fn long(size: usize) -> Vec<u8> {
    (0..size).map(|at| (at * 7 + at / 48 * 5 + at / 576) as u8).collect()
}

fn with_longest(name: &str) -> Folder {
    let folder = Folder::with_store(name, 65_536);
    folder.run(&["create"]).gives("0\n");
    folder.run_with(&["put", "0"], &long(LONGEST)).gives("blob 0 has 2883456 bytes\n");
    folder
}

/// One byte more is a leaf more, and a file of any length is told from one that fits.
#[test]
fn the_longest_blob() {
    let folder = Folder::with_store("large_longest", 65_536);
    folder.run(&["create"]).gives("0\n");
    let no_room = |least: &str, blocks: u64| {
        format!("refused 11: no room, {least}{blocks} new blocks needed and 65535 slots usable\n")
    };
    folder.run_with(&["put", "0"], &long(LONGEST + 1)).fails(11, &no_room("", 65_536));
    folder.run_with(&["put", "0"], &vec![7; 5_000_000]).fails(11, &no_room("at least ", 95_327));
    folder.run(&["resize", "0", "2883457"]).fails(11, &no_room("", 65_536));
    let all = long(LONGEST);
    folder.run_with(&["put", "0"], &all).gives("blob 0 has 2883456 bytes\n");
    folder.run(&["resize", "0", "2883457"]).fails(11, "2 new blocks needed and 1 slot usable");
    assert!(folder.run(&["get", "0"]).out == all);
    folder.run(&["get", "0", "out"]).gives("2883456 bytes to out\n");
    assert!(folder.read("out") == all);
    let part = folder.run(&["get", "0", "--offset", "995327", "--size", "100000"]);
    assert!(part.out == all[995_327..1_095_327]);
    assert_eq!(folder.run(&["show", "0", "60071"]).out, all[LONGEST - 48..]);
    folder.run(&["show", "0", "60072"]).fails(10, "refused 10");
}

#[test]
fn every_other_command() {
    let folder = with_longest("large_commands");
    folder.run(&["create"]).gives("65535\n");
    folder.run(&["create"]).fails(11, "1 new block needed and 0 slots usable");
    let list = [
        " root  length leaves blocks  version",
        "    0 2883456  60072  65535  2",
        "65535       0      1      1  1\n",
    ];
    folder.run(&["ls"]).gives(&list.join("\n"));
    folder.run(&["audit"]).gives("sound: 65536 of 65536 slots in use\n");
    folder.run(&["check"]).gives("no bad slot is found\nblobs that read whole: 0 and 65535\n");
    folder.run_with(&["write", "0", "2883453"], b"end").gives("3 bytes into blob 0\n");
    assert!(folder.run(&["get", "0", "--offset", "2883452"]).out.ends_with(b"end"));
    folder.run(&["resize", "0", "995328"]).gives("blob 0 has 995328 bytes\n");
    folder.run(&["audit"]).gives("sound: 22622 of 65536 slots in use\n");
    folder.run(&["delete", "0"]).gives("blob 0 is deleted\n");
    let status = "\
slots              65536
in use                 1
  of these worn        0
free               65535
  of these worn        0
blobs                  1
largest new blob 2883456 bytes
";
    folder.run(&["status"]).gives(status);
}

/// A pool of 65,600 bytes was too long while 1,024 slots were the most; now
/// 4,194,368 is the first too long.
#[test]
fn lengths_of_files() {
    let folder = Folder::new("large_lengths");
    let audit = |slots: usize| -> Ended {
        folder.write("store.pool", &vec![0; 64 * slots]);
        folder.write("store.records", &vec![0; 12 * slots]);
        folder.run(&["audit"])
    };
    audit(1_025).fails(2, "refused 2: slot 0 has a broken record");
    audit(65_536).fails(2, "refused 2: slot 0 has a broken record");
    audit(65_537).fails(1, "refused 1: the lengths of pool and records do not fit");
    folder.run(&["init", "--force", "--forget-history"]).fails(73, "is too long for a part");
}

/// Old blocks of a tall blob come back: all are listed, and what they cut off.
#[test]
fn old_blocks_of_a_tall_blob() {
    let folder = with_longest("large_old");
    let old = folder.read("store.pool");
    folder.run_with(&["write", "0", "0"], b"new").gives("3 bytes into blob 0\n");
    folder.run_with(&["write", "0", "2000000"], b"new").gives("3 bytes into blob 0\n");
    folder.write("store.pool", &old);
    let checked = folder.run(&["check"]);
    assert_eq!(checked.status, 6);
    let lines: Vec<&str> = checked.text().lines().collect();
    assert_eq!(lines.len(), 5, "{lines:?}");
    assert!(lines[..2].iter().all(|line| line.ends_with(" was rolled back; hurts blob 0")));
    assert_eq!(lines[2..4], ["blobs that read whole: none", "blobs that are refused: 0"]);
    // Below a spoiled root all is cut off, up to height 4, and well.
    folder.spoil(0, &[0]);
    let checked = folder.run(&["check"]);
    assert!(checked.text().starts_with("refused 4: slot 0 is spoiled; hurts blob 0\n"));
    assert!(checked.text().contains("\ncut off, but not bad: slots "), "{}", checked.text());
}

/// Many blobs, of which one is old: listed in time by the slots, not by blobs
/// times slots.
#[test]
fn many_blobs() {
    let slots = 65_536u32;
    let folder = Folder::new("large_many");
    let block = |slot: u32| {
        let mut block = [0; 64];
        block[..2].copy_from_slice(&[0x4C, 0x31]);
        block[4..8].copy_from_slice(&slot.to_le_bytes());
        block[8] = if slot == 40_000 { 1 } else { 2 };
        block
    };
    folder.write("store.pool", &(0..slots).flat_map(block).collect::<Vec<u8>>());
    folder.write("store.records", &[0x52, 0x31, 2, 0, 2, 0, 0, 0, 0, 0, 0, 0].repeat(65_536));
    let list = folder.run(&["ls"]);
    assert_eq!((list.status, list.text().lines().count()), (6, 65_537));
    assert_eq!(
        list.text().lines().nth(40_001),
        Some("40000 refused 6: slot 40000 was rolled back")
    );
    assert_eq!(list.text().lines().nth(65_536), Some("65535       0      1      1  2"));
    let checked = folder.run(&["check"]);
    let reads = "\nblobs that read whole: 0 to 39999 and 40001 to 65535\n";
    assert!(checked.status == 6 && checked.text().contains(reads), "{}", checked.text());
    let mut records = folder.read("store.records");
    records[12 * 5] = 0;
    folder.write("store.records", &records);
    let checked = folder.run(&["check"]);
    let few = "hurts blobs 0 to 4 and 6 to 12, and 65523 more\n";
    assert!(checked.status == 2 && checked.text().contains(few));
    let object = folder.run(&["check", "--json"]);
    assert!(object.text().contains(r#","hurts":[0,1,2,3,4,6,7,8,9,10,11,12],"hurts_more":65523}"#));
}
