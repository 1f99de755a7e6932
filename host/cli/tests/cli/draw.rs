//! Pictures: every slot in them, and every refusal.

use crate::support::Folder;

/// The picture of the folder's store; its tags are closed in order.
fn picture(folder: &Folder) -> String {
    let drawn = folder.run(&["draw"]);
    assert_eq!((drawn.status, drawn.err.as_str()), (0, ""));
    let svg = drawn.text().to_string();
    assert!(
        svg.starts_with("<svg xmlns=\"http://www.w3.org/2000/svg\" ") && svg.ends_with("</svg>\n")
    );
    for name in ["g", "text", "title"] {
        let (open, close) = (format!("<{name}"), format!("</{name}>"));
        assert_eq!(svg.matches(&open).count(), svg.matches(&close).count(), "{name}");
    }
    svg
}

#[test]
fn four_slots() {
    let folder = Folder::with_store("draw_4", 4);
    folder.run(&["create"]).gives("0\n");
    folder.run(&["resize", "0", "60"]).gives("blob 0 has 60 bytes\n");
    let svg = picture(&folder);
    for words in ["slot 0: root, version 2", "slot 2: leaf, version 1", "slot 3: free, version 0"] {
        assert!(svg.contains(words), "{words}");
    }
    assert!(svg.contains("Sound: the audit passes, 3 slots in use."));
    assert!(svg.contains("Blob 0") && svg.contains("60 bytes, 3 blocks"));
    folder.run(&["draw", "--out", "a.svg"]).gives("picture of 4 slots in a.svg\n");
    assert_eq!(folder.read("a.svg"), svg.as_bytes());
}

#[test]
fn all_slots_of_1024() {
    let folder = Folder::with_store("draw_1024", 1024);
    folder.run(&["create"]).gives("0\n");
    folder.run(&["resize", "0", "44976"]).gives("blob 0 has 44976 bytes\n");
    let svg = picture(&folder);
    for slot in 0..1024 {
        let found = svg.matches(&format!("<title>slot {slot}: ")).count();
        // Once in the grid and once in the tree; slot 7 is the sample, seven times.
        assert_eq!(found, if slot == 7 { 9 } else { 2 }, "{slot}");
    }
}

/// The first and the last slot of each area of dots, and what they are, in order.
fn areas(svg: &str) -> Vec<(usize, usize, &str)> {
    let titles = svg.lines().filter(|line| line.starts_with("<rect") && line.contains("<title>"));
    let area = |line: &'_ str| -> Option<(usize, usize, usize)> {
        let words = &line[line.find("<title>slot")? + 11..];
        let (slots, _) = words.trim_start_matches('s').trim_start().split_once(": ")?;
        let (first, last) = slots.split_once(" to ").unwrap_or((slots, slots));
        Some((first.parse().ok()?, last.parse().ok()?, line.find(": ")? + 2))
    };
    let found =
        titles.filter_map(|line| area(line).map(|(first, last, at)| (first, last, &line[at..])));
    found.map(|(first, last, rest)| (first, last, rest.split('<').next().unwrap())).collect()
}

/// How many blocks are drawn in trees: alone, and in boxes with neighbours and
/// what is below them.
fn blocks_in_trees(svg: &str) -> (usize, usize) {
    let trees = svg.split(">Blobs</text>").nth(1).unwrap();
    let number = |words: &str| words.split(' ').next().and_then(|word| word.parse::<usize>().ok());
    let titles = || trees.lines().filter_map(|line| line.strip_prefix("<g><title>"));
    let boxes = titles()
        .filter(|words| words.contains(" below, "))
        .map(|words| number(words).unwrap() + words.split("; ").nth(1).and_then(number).unwrap());
    (titles().filter(|words| words.starts_with("slot ")).count(), boxes.sum())
}

/// Of more than 1,024 slots each is a dot, once; every block of a drawn blob is
/// drawn, or counted in a box.
#[test]
fn more_than_1024_slots() {
    for (slots, length, blocks) in [(1_025, 44_977, 1_025), (65_536, 2_883_456, 65_535)] {
        let folder = Folder::with_store(&format!("draw_{slots}"), slots);
        folder.run(&["create"]).gives("0\n");
        folder.run(&["resize", "0", &length.to_string()]);
        let svg = picture(&folder);
        let mut next = 0;
        for (first, last, what) in areas(&svg) {
            assert_eq!(first, next);
            assert!(first == 0 || ["leaf", "inner", "free"].contains(&what), "{what}");
            next = last + 1;
        }
        assert_eq!(next, slots);
        let (alone, together) = blocks_in_trees(&svg);
        assert!(alone + together == blocks && alone < 20, "{alone} and {together}");
        assert!(svg.contains("a dot for each slot") && !svg.contains("Refused slots"));
        assert!(svg.len() < 2_000_000, "{}", svg.len());
    }
}

/// What is refused is seen: a red dot, the slot drawn large, and the slot in its
/// tree.
#[test]
fn refused_slots_of_a_large_store() {
    let folder = Folder::with_store("draw_large_refused", 3_000);
    folder.run(&["create"]).gives("0\n");
    folder.run(&["resize", "0", "100000"]).gives("blob 0 has 100000 bytes\n");
    folder.spoil(1_000 * 64, &[0]);
    folder.spoil(2_999 * 64, &[7]);
    let svg = picture(&folder);
    let red: Vec<_> = areas(&svg)
        .into_iter()
        .filter(|area| area.2.contains(|c: char| c.is_ascii_digit()))
        .collect();
    assert_eq!(red, [(1_000, 1_000, "4 spoiled"), (2_999, 2_999, "9 reintroduced")]);
    let spoiled = "<g><title>slot 1000: 4 spoiled, version 1; block has no mark</title>";
    let (before, trees) = svg.split_once(">Blobs</text>").unwrap();
    assert!(before.contains(">Refused slots</text>") && before.contains(">2 slots</text>"));
    assert_eq!((before.matches(spoiled).count(), trees.matches(spoiled).count()), (1, 1));
    let (alone, together) = blocks_in_trees(&svg);
    assert!(alone + together == 2_276 && alone < 40, "{alone} and {together}");
}

/// Where much is refused, and where blobs are many, the picture says what it
/// leaves out; of blobs the refused ones are drawn.
#[test]
fn what_a_picture_leaves_out() {
    let folder = Folder::with_store("draw_large_much", 2_000);
    folder.run(&["create"]).gives("0\n");
    folder.run(&["resize", "0", "60000"]).gives("blob 0 has 60000 bytes\n");
    let mut pool = folder.read("store.pool");
    for slot in 1..1_300 {
        pool[slot * 64 + 8] += 1;
    }
    folder.write("store.pool", &pool);
    let svg = picture(&folder);
    assert!(svg.contains(">the first 60 of 1299 slots, without 1239 more</text>"));
    let red = |line: &&str| {
        line.starts_with("<g><title>") && line.contains(" below, ") && !line.contains(" 0 refused")
    };
    assert!(svg.lines().any(|line| red(&line)));
    assert!(blocks_in_trees(&svg).0 < 200 && svg.len() < 200_000);

    let many = Folder::with_store("draw_large_many", 1_100);
    let block = |slot: u16| {
        let mut block = [0; 64];
        block[..2].copy_from_slice(&[0x4C, 0x31]);
        block[4..6].copy_from_slice(&slot.to_le_bytes());
        block[8] = if slot == 1_000 { 1 } else { 2 };
        block
    };
    many.write("store.pool", &(0..1_100).flat_map(block).collect::<Vec<u8>>());
    many.write("store.records", &[0x52, 0x31, 2, 0, 2, 0, 0, 0, 0, 0, 0, 0].repeat(1_100));
    let svg = picture(&many);
    assert!(svg.contains(">Blob 58<") && svg.contains(">Blob 1000<") && !svg.contains(">Blob 59<"));
    assert!(svg.contains(">and 1040 more blobs, 0 refused blobs among them</text>"));
}

#[test]
fn refused_slots() {
    let folder = Folder::with_blob("draw_refused");
    folder.run(&["create"]).gives("4\n");
    folder.spoil(2 * 64 + 8, &[1]);
    folder.spoil(4 * 64 + 4, &[9]);
    folder.spoil(7 * 64, &[1]);
    let svg = picture(&folder);
    assert!(svg.contains("Not sound: the audit is refused."));
    let old =
        "refused 6: slot 2 was rolled back (its record says version 2; its block says version 1)";
    assert!(svg.contains(old), "{svg}");
    assert!(svg.contains("slot 2: 6 rolled back, version 2; block says version 1"));
    assert!(svg.contains("slot 4: 5 moved, version 1; block says slot 9"));
}

#[test]
fn a_block_in_a_free_slot() {
    let folder = Folder::with_blob("draw_back");
    folder.spoil(7 * 64, &[1]);
    let svg = picture(&folder);
    assert!(svg.contains("slot 7: 9 reintroduced, version 0; block has no mark"));
}

#[test]
fn worn_slots() {
    let folder = Folder::with_store("draw_worn", 2);
    let mut records = folder.read("store.records");
    records[16..24].fill(255);
    folder.write("store.records", &records);
    let svg = picture(&folder);
    assert!(svg.contains("slot 1: free, worn, version 18446744073709551615"));
    assert!(svg.contains("2 slots: 0 in use, 1 free, 1 free but worn"));
}

/// Any bytes of the pool give a picture.
#[test]
fn foreign_pools() {
    let folder = Folder::with_blob("draw_foreign");
    let sound = folder.read("store.pool");
    let mut state = 1u64;
    for _ in 0..60 {
        let mut pool = sound.clone();
        for _ in 0..6 {
            state = state.wrapping_mul(6364136223846793005).wrapping_add(1442695040888963407);
            let (place, byte) = ((state >> 33) as usize % 320, (state >> 20) as u8 % 16);
            pool[place] = byte;
        }
        folder.write("store.pool", &pool);
        picture(&folder);
    }
}
