//! Each refusal 1 to 12 with its slot, in every call that can give it.

use super::{no, plain_no, Store, FREE, PART, ROOT, WORN};
use crate::Refusal;

/// All calls that name a root refuse like this.
fn all_named_refuse(store: &mut Store, root: u64, refusal: Refusal) {
    readers_refuse(store, root, refusal);
    assert_eq!(store.write(root, 0, &[]), Err(refusal));
    assert_eq!(store.resize(root, 0), Err(refusal));
    assert_eq!(store.delete(root), Err(refusal));
}

/// The calls with the blob check refuse like this.
fn readers_refuse(store: &Store, root: u64, refusal: Refusal) {
    assert_eq!(store.length(root), Err(refusal));
    assert_eq!(store.read(root, 0, 0), Err(refusal));
    assert_eq!(store.show(root, 0), Err(refusal));
    assert_eq!(store.open_head(root), Err(refusal));
}

/// The calls with the pool check refuse like this; nothing is wrong with what they ask.
fn pool_checkers_refuse(store: &mut Store, root: u64, refusal: Refusal) {
    assert_eq!(store.audit(), Err(refusal));
    assert_eq!(store.create(), Err(refusal));
    assert_eq!(store.write(root, 0, &[1]), Err(refusal));
    assert_eq!(store.resize(root, 0), Err(refusal));
    assert_eq!(store.delete(root), Err(refusal));
}

/// All calls but wipe refuse like this.
fn all_refuse(store: &mut Store, root: u64, refusal: Refusal) {
    all_named_refuse(store, root, refusal);
    assert_eq!(store.create(), Err(refusal));
    assert_eq!(store.audit(), Err(refusal));
}

#[test]
fn one_for_any_lengths_that_do_not_fit() {
    let lengths = [
        (0, 0),
        (0, 12),
        (63, 12),
        (65, 12),
        (64, 0),
        (64, 11),
        (64, 13),
        (64, 24),
        (128, 12),
        (65_536, 12_300),
        (65_537, 12_288),
        // Of 65,600 bytes only those with other records: W-203 has more slots.
        (65_600, 12_288),
        (4_194_304, 786_444),
        (4_194_305, 786_432),
        (4_194_368, 786_432),
        (4_194_368, 786_444),
        (6_400_000, 1_200_000),
    ];
    for (pool, records) in lengths {
        let mut store = Store { pool: vec![1; pool], records: vec![2; records] };
        all_refuse(&mut store, 0, plain_no(1));
        assert_eq!(store.wipe(), Err(plain_no(1)));
    }
}

/// W-203: 1,024 slots, the upper end before, are somewhere between.
#[test]
fn both_ends_of_the_allowed_lengths_pass() {
    for slots in [1, 1024, 1025, 65_536] {
        assert_eq!(Store::wiped(slots).create(), Ok(0));
    }
}

#[test]
fn two_names_the_lowest_broken_record() {
    let mut store = Store::with_blob(5, 49);
    store.record_mut(4)[0] = 0;
    all_refuse(&mut store, 0, no(2, 4));
    store.record_mut(3)[3] = 1;
    all_refuse(&mut store, 0, no(2, 3));
    store.record_mut(1)[1] = 0;
    all_refuse(&mut store, 0, no(2, 1));
    assert_eq!(store.wipe(), Ok(()));
}

#[test]
fn three_for_a_slot_that_is_no_root() {
    let mut store = Store::with_blob(4, 49);
    for root in [1, 2, 3, 4, 1024, u64::from(u32::MAX), u64::MAX] {
        all_named_refuse(&mut store, root, plain_no(3));
    }
}

#[test]
fn four_names_the_spoiled_block() {
    for (slot, byte) in [(0, 0), (0, 1), (1, 0), (2, 1)] {
        let mut store = Store::with_blob(4, 49);
        store.block_mut(slot)[byte] ^= 0x80;
        all_refuse(&mut store, 0, no(4, slot as u64));
    }
}

#[test]
fn five_names_the_slot_where_the_moved_block_lies() {
    for slot in [0, 1, 2] {
        let mut store = Store::with_blob(4, 49);
        store.set_own_slot(slot, 3);
        all_refuse(&mut store, 0, no(5, slot as u64));
        store.set_own_slot(slot, slot as u32 + (1 << 24));
        all_refuse(&mut store, 0, no(5, slot as u64));
    }
}

#[test]
fn six_and_seven_name_the_block_behind_and_ahead() {
    for slot in [0, 1, 2] {
        let mut store = Store::with_blob(4, 49);
        store.set_version(slot, 1 << 40);
        assert_eq!(store.audit(), Ok(3));
        for (version, number) in [(0, 6), ((1 << 40) - 1, 6), ((1 << 40) + 1, 7), (WORN, 7)] {
            store.set_block_version(slot, version);
            all_refuse(&mut store, 0, no(number, slot as u64));
        }
    }
}

#[test]
fn eight_names_the_parent_for_a_bad_child_slot() {
    let mut store = Store::with_blob(8, 49);
    assert_eq!(store.create(), Ok(3));
    for child in [8, 1024, u32::MAX, 0, 3, 1] {
        store.set_child(0, 1, child);
        all_refuse(&mut store, 0, no(8, 0));
    }
}

#[test]
fn eight_names_the_block_of_wrong_shape() {
    let mut store = Store::with_blob(8, 49);
    store.block_mut(2)[2] = 1;
    all_refuse(&mut store, 0, no(8, 2));
    let mut store = Store::with_blob(8, 49);
    store.block_mut(1)[3] = 47;
    all_refuse(&mut store, 0, no(8, 1));
    let mut store = Store::with_blob(8, 49);
    store.block_mut(2)[17] = 5;
    all_refuse(&mut store, 0, no(8, 2));
    let mut store = Store::with_blob(8, 49);
    store.block_mut(0)[63] = 5;
    all_refuse(&mut store, 0, no(8, 0));
}

#[test]
fn eight_names_a_part_that_no_root_reaches() {
    let mut store = Store::with_blob(8, 49);
    store.build_leaf(5, PART, &[1]);
    pool_checkers_refuse(&mut store, 0, no(8, 5));
    assert_eq!(store.length(0), Ok(49));
    assert_eq!(store.show(0, 1), Ok(&[0][..]));
}

#[test]
fn nine_names_the_free_child() {
    let mut store = Store::with_blob(8, 49);
    store.set_record(2, FREE, 1);
    all_refuse(&mut store, 0, no(9, 2));
}

#[test]
fn nine_names_the_free_slot_that_has_a_byte() {
    for byte in [0, 31, 63] {
        let mut store = Store::with_blob(8, 49);
        store.block_mut(6)[byte] = 1;
        pool_checkers_refuse(&mut store, 0, no(9, 6));
        assert_eq!(store.read(0, 0, 49), Ok(vec![0; 49]));
    }
}

#[test]
fn ten_beyond_the_length_and_the_leaves() {
    let mut store = Store::with_blob(8, 100);
    for (offset, size) in [(100, 1), (99, 2), (0, 101), (101, 0), (u64::MAX, 0), (u64::MAX, 1)] {
        assert_eq!(store.read(0, offset, size), Err(plain_no(10)));
        assert_eq!(store.write(0, offset, &vec![1; size]), Err(plain_no(10)));
    }
    for leaf in [3, 4, 1 << 32, u64::MAX] {
        assert_eq!(store.show(0, leaf), Err(plain_no(10)));
    }
    assert_eq!(store.show(0, 2), Ok(&[0; 4][..]));
}

#[test]
fn eleven_without_enough_usable_slots() {
    let mut store = Store::with_blob(4, 96);
    assert_eq!(store.resize(0, 145), Err(plain_no(11)));
    assert_eq!(store.resize(0, 144), Ok(()));
    assert_eq!(store.create(), Err(plain_no(11)));
}

#[test]
fn twelve_for_any_worn_block_of_the_blob() {
    for slot in [0, 1, 2] {
        let mut store = Store::with_blob(8, 49);
        store.set_version(slot, WORN);
        assert_eq!(store.write(0, 0, &[1]), Err(plain_no(12)));
        assert_eq!(store.resize(0, 10), Err(plain_no(12)));
        assert_eq!(store.resize(0, 100), Err(plain_no(12)));
        assert_eq!(store.length(0), Ok(49));
        assert_eq!(store.audit(), Ok(3));
        assert_eq!(store.delete(0), Ok(()));
    }
}

#[test]
fn a_refusal_says_its_number_and_slot() {
    let named: Box<dyn std::error::Error> = Box::new(no(6, 3));
    assert_eq!(named.to_string(), "refusal 6: a block was rolled back (slot 3)");
    assert_eq!(plain_no(10).to_string(), "refusal 10: out of the blob's range");
    assert_eq!(Store::wiped(1).state(0), FREE);
    assert_eq!(Store::with_blob(1, 0).state(0), ROOT);
}
