//! The rows of the paper's "Numbers to try" that can be run, its whole example,
//! every count of leaves, and every refusal, through the crate.

use tjornsaki::{audit, create, delete, length, read, resize, room, show, wipe, write};
use tjornsaki::{Head, Refusal, MOST_SLOTS};

type Store = (Vec<u8>, Vec<u8>);

fn wiped(slots: usize) -> Store {
    let (mut pool, mut records) = room(slots);
    wipe(&mut pool, &mut records).unwrap();
    (pool, records)
}

/// A wiped store with one blob of this length in slot 0.
fn with_blob(slots: usize, size: u64) -> Store {
    let (mut pool, mut records) = wiped(slots);
    assert_eq!(create(&mut pool, &mut records), Ok(0));
    resize(&mut pool, &mut records, 0, size).unwrap();
    (pool, records)
}

fn no(number: u64, slot: Option<u64>) -> Refusal {
    Refusal { number, slot }
}

/// State and version of each slot.
fn states(records: &[u8]) -> Vec<(u8, u64)> {
    let record = |bytes: &[u8]| (bytes[2], u64::from_le_bytes(bytes[4..].try_into().unwrap()));
    records.chunks(12).map(record).collect()
}

#[test]
fn the_whole_example() {
    let (mut pool, mut records) = wiped(1);
    assert_eq!(create(&mut pool, &mut records), Ok(0));
    let mut block = vec![0x4C, 0x31, 0, 0, 0, 0, 0, 0, 1, 0, 0, 0, 0, 0, 0, 0];
    block.resize(64, 0);
    assert_eq!(pool, block);
    assert_eq!(records, [0x52, 0x31, 2, 0, 1, 0, 0, 0, 0, 0, 0, 0]);
}

#[test]
fn block_totals() {
    let totals = [
        (0, 1),
        (48, 1),
        (49, 3),
        (576, 13),
        (577, 16),
        (6_912, 157),
        (6_913, 161),
        (44_976, 1_024),
        // The rest needs larger pools than there were at first: 1,728 and 1,729
        // leaves, 20,736 and 20,737, and the most.
        (44_977, 1_025),
        (82_944, 1_885),
        (82_945, 1_890),
        (995_328, 22_621),
        (995_329, 22_627),
        (2_883_456, 65_535),
    ];
    for (size, blocks) in totals {
        let (pool, records) = with_blob(blocks.max(1_024) as usize, size);
        assert_eq!(audit(&pool, &records), Ok(blocks), "length {}", size);
        assert_eq!(length(&pool, &records, 0), Ok(size));
    }
}

/// The paper's rule for the block total of so many leaves.
fn paper_total(leaves: u64) -> u64 {
    match leaves {
        1 => 1,
        n => n + paper_total((n + 11) / 12),
    }
}

/// An empty blob in a pool of so many slots made as long as so many leaves.
fn lengthened(slots: u64, leaves: u64) -> Result<Store, Refusal> {
    let (mut pool, mut records) = with_blob(slots as usize, 0);
    resize(&mut pool, &mut records, 0, 48 * leaves)?;
    Ok((pool, records))
}

/// Counts after the sheet's last: the next ones, and those on either side of a
/// height, to the most.
const WORKED_OUT: [u64; 8] = [938, 939, 1_728, 1_729, 20_736, 20_737, 60_071, 60_072];

/// Every row of the library's sheet, and some larger counts, which are worked
/// out: that many leaves fit a pool of their block total, and lack room in one of
/// a slot less. The first row is the empty blob's: it is in every price.
#[test]
fn every_count_of_leaves_has_its_price() {
    for leaves in (2..=937).chain(WORKED_OUT) {
        let blocks = paper_total(leaves);
        let audited = lengthened(blocks, leaves).and_then(|(pool, records)| audit(&pool, &records));
        assert_eq!(audited, Ok(blocks), "{} leaves", leaves);
        let lacking = lengthened(blocks - 1, leaves);
        assert_eq!(lacking, Err(no(11, None)), "{} leaves", leaves);
    }
    assert_eq!(paper_total(937), 1_024);
}

#[test]
fn longer_shorter_and_used_again() {
    let (mut pool, mut records) = with_blob(4, 0);
    assert_eq!(states(&records), [(2, 1), (0, 0), (0, 0), (0, 0)]);
    resize(&mut pool, &mut records, 0, 49).unwrap();
    assert_eq!(states(&records), [(2, 2), (1, 1), (1, 1), (0, 0)]);
    assert_eq!(pool[16..24], [1, 0, 0, 0, 2, 0, 0, 0]);
    resize(&mut pool, &mut records, 0, 48).unwrap();
    assert_eq!(states(&records), [(2, 3), (0, 1), (0, 1), (0, 0)]);
    assert_eq!(pool[2..4], [0, 48]);
    assert_eq!(create(&mut pool, &mut records), Ok(1));
    assert_eq!(states(&records)[1], (2, 2));
}

#[test]
fn no_room() {
    let (mut pool, mut records) = with_blob(2, 0);
    assert_eq!(resize(&mut pool, &mut records, 0, 49), Err(no(11, None)));
    let (mut pool, mut records) = with_blob(1_024, 0);
    assert_eq!(resize(&mut pool, &mut records, 0, 44_977), Err(no(11, None)));
    assert_eq!(resize(&mut pool, &mut records, 0, u64::MAX), Err(no(11, None)));
    let (mut pool, mut records) = with_blob(MOST_SLOTS, 0);
    assert_eq!(resize(&mut pool, &mut records, 0, 2_883_457), Err(no(11, None)));
    assert_eq!(resize(&mut pool, &mut records, 0, u64::MAX), Err(no(11, None)));
}

#[test]
fn no_wrapped_sum() {
    let (mut pool, mut records) = with_blob(2, 10);
    let mut out = [7; 2];
    assert_eq!(read(&pool, &records, 0, u64::MAX, &mut out), Err(no(10, None)));
    assert_eq!(out, [7; 2]);
    assert_eq!(write(&mut pool, &mut records, 0, u64::MAX, &out), Err(no(10, None)));
    assert_eq!(show(&pool, &records, 0, 1), Err(no(10, None)));
    assert_eq!(read(&pool, &records, 0, 10, &mut []), Ok(()));
}

#[test]
fn wrong_lengths() {
    assert_eq!(wipe(&mut [], &mut []), Err(no(1, None)));
    // 65,600 bytes were too long while a pool had at most 1,024 slots.
    for (slots, bytes) in [(1_025, 65_600), (MOST_SLOTS, 4_194_304)] {
        let (mut pool, mut records) = room(slots);
        assert_eq!(pool.len(), bytes);
        assert_eq!(audit(&pool, &records), Err(no(2, Some(0))));
        assert_eq!(wipe(&mut pool, &mut records), Ok(()));
        assert_eq!(audit(&pool, &records), Ok(0));
    }
    let (mut pool, mut records) = room(MOST_SLOTS + 1);
    assert_eq!(pool.len(), 4_194_368);
    assert_eq!(wipe(&mut pool, &mut records), Err(no(1, None)));
    assert_eq!(audit(&pool, &records), Err(no(1, None)));
}

/// What the crate's page says of the stack: every call in the largest store, in
/// a thread with no more than the library's 737,280 bytes and 64 KiB for the rest.
#[test]
fn a_small_stack_is_enough() {
    let every_call = || {
        let (mut pool, mut records) = with_blob(MOST_SLOTS, 2_883_456);
        write(&mut pool, &mut records, 0, 2_883_455, b"x").unwrap();
        let mut out = [0];
        read(&pool, &records, 0, 2_883_455, &mut out).unwrap();
        assert_eq!(show(&pool, &records, 0, 60_071).unwrap()[47..], out);
        assert_eq!(length(&pool, &records, 0), Ok(2_883_456));
        assert_eq!(Head::open(&pool, &records, 0).unwrap().next(&mut out), 1);
        assert_eq!(audit(&pool, &records), Ok(65_535));
        assert_eq!(create(&mut pool, &mut records), Ok(65_535));
        resize(&mut pool, &mut records, 0, 1).unwrap();
        delete(&mut pool, &mut records, 0)
    };
    let thread = std::thread::Builder::new().stack_size(737_280 + (64 << 10)).spawn(every_call);
    assert_eq!(thread.unwrap().join().unwrap(), Ok(()));
}

#[test]
fn broken_record_and_no_root() {
    let (pool, mut records) = with_blob(4, 49);
    assert_eq!(length(&pool, &records, 1), Err(no(3, None)));
    assert_eq!(length(&pool, &records, 1 << 32), Err(no(3, None)));
    records[12 * 3 + 2] = 3;
    assert_eq!(length(&pool, &records, 0), Err(no(2, Some(3))));
}

/// An older copy in its own slot, a valid block in another slot, an old block
/// in a free slot; a spoiled mark, a version ahead, a wrong shape.
#[test]
fn what_the_walk_finds() {
    let (mut pool, mut records) = with_blob(4, 49);
    let old = pool.clone();
    write(&mut pool, &mut records, 0, 0, b"new").unwrap();
    let new = pool.clone();
    let mut spoilt = |at: usize, bytes: &[u8], number: u64, slot: u64| {
        pool[at..at + bytes.len()].copy_from_slice(bytes);
        assert_eq!(audit(&pool, &records), Err(no(number, Some(slot))));
        pool.copy_from_slice(&new);
    };
    spoilt(64, &old[64..128], 6, 1);
    spoilt(64, &old[128..192], 5, 1);
    spoilt(192, &old[64..128], 9, 3);
    spoilt(64, &[0], 4, 1);
    spoilt(64 + 8, &[9], 7, 1);
    spoilt(64 + 3, &[47], 8, 1);
    delete(&mut pool, &mut records, 0).unwrap();
    assert_eq!(audit(&pool, &records), Ok(0));
}

#[test]
fn worn_blobs_are_read_and_deleted_but_not_changed() {
    let (mut pool, mut records) = with_blob(2, 5);
    pool[8..16].fill(0xFF);
    records[4..12].fill(0xFF);
    assert_eq!(write(&mut pool, &mut records, 0, 0, &[]), Err(no(12, None)));
    assert_eq!(resize(&mut pool, &mut records, 0, 5), Err(no(12, None)));
    assert_eq!(show(&pool, &records, 0, 0), Ok(&[0; 5][..]));
    assert_eq!(delete(&mut pool, &mut records, 0), Ok(()));
    assert_eq!(create(&mut pool, &mut records), Ok(1));
}

#[test]
fn a_shown_leaf_is_a_part_of_the_pool() {
    let (pool, records) = with_blob(4, 50);
    let part = show(&pool, &records, 0, 1).unwrap();
    assert!(std::ptr::eq(part, &pool[2 * 64 + 16..2 * 64 + 18]));
}
