//! Readings 12 to 24: calls and versions. Reading 21 speaks of slots given as
//! plain numbers, which this crate does not have; its second sentence is a test.

use super::{no, pattern, plain_no, Store, FREE, PART, ROOT, WORN};
use crate::bytes::decode_record;
use crate::cells::{decode_cells, Cell};
use crate::resize::{drop_last_leaf, fit_last_leaf, lower_root, shorten};
use crate::shape::{leaf_count, leaf_share};

#[test]
fn reading_12_no_change_changes_no_byte() {
    for length in [0, 1, 48, 49, 576, 577, 6_913] {
        let mut store = Store::with_blob(200, length);
        store.write(0, 0, &pattern(length as usize)).unwrap();
        let before = store.clone();
        assert_eq!(store.resize(0, length), Ok(()));
        assert_eq!(store.write(0, length, &[]), Ok(()));
        assert_eq!(store.write(0, 0, &[]), Ok(()));
        assert_eq!(store, before);
    }
}

#[test]
fn reading_13_the_last_leaf_fills_to_its_share() {
    let mut store = Store::with_blob(8, 50);
    store.write(0, 0, &pattern(50)).unwrap();
    let before = store.clone();
    store.resize(0, 60).unwrap();
    assert_eq!((store.count(2), store.version(2)), (12, before.version(2) + 1));
    assert_eq!(store.block(2)[16..], before.block(2)[16..]);
    assert_eq!(store.block(0), before.block(0));
    assert_eq!(store.block(1), before.block(1));
}

#[test]
fn reading_13_a_last_leaf_of_48_stays_as_it_is() {
    let mut store = Store::with_blob(8, 96);
    let before = store.clone();
    store.resize(0, 97).unwrap();
    assert_eq!(store.block(2), before.block(2));
    assert_eq!(store.record(2), before.record(2));
    assert_eq!(store.version(0), before.version(0) + 1);
}

#[test]
fn reading_14_lowest_block_is_nearest_the_leaves() {
    let mut store = Store::with_blob(32, 577);
    assert_eq!(store.children(0), [13, 14]);
    store.resize(0, 48 * 14).unwrap();
    assert_eq!(store.children(0), [13, 14]);
    assert_eq!(store.children(14), [15, 16]);
}

#[test]
fn reading_14_lowest_slot_is_by_number() {
    let mut store = Store::wiped(8);
    for slot in 0..6 {
        assert_eq!(store.create(), Ok(slot));
    }
    store.delete(3).unwrap();
    store.delete(1).unwrap();
    store.resize(5, 97).unwrap();
    assert_eq!(store.children(5), [1, 3, 6]);
}

/// The shrinking of `shorten`, but with the root lowered once at the end.
fn shorten_lowering_once(cells: &mut [Cell], old: u64, new: u64) {
    for _ in leaf_count(new)..leaf_count(old) {
        drop_last_leaf(cells, 0);
    }
    lower_root(cells, 0);
    fit_last_leaf(cells, 0, leaf_share(new, leaf_count(new) - 1));
}

#[test]
fn reading_15_lowering_once_gives_the_same_cells() {
    let mut store = Store::with_blob(400, 15_000);
    store.write(0, 0, &pattern(15_000)).unwrap();
    let records: Vec<_> =
        store.records.chunks(12).map(|bytes| decode_record(bytes).unwrap()).collect();
    let before = decode_cells(&store.pool, &records);
    for new in (0..15_000).step_by(37).chain([48, 49, 576, 577, 6_912, 6_913]) {
        let (mut each, mut once) = (before.clone(), before.clone());
        shorten(&mut each, 0, 15_000, new);
        shorten_lowering_once(&mut once, 15_000, new);
        assert!(each == once, "new length {new}");
    }
}

#[test]
fn reading_15_the_root_rises_exactly_at_12_to_the_d() {
    let mut store = Store::with_blob(200, 0);
    for leaves in 1..=145u64 {
        store.resize(0, 48 * leaves).unwrap();
        let height = [1, 12, 144].iter().filter(|power| leaves > **power).count();
        assert_eq!(usize::from(store.height(0)), height, "{leaves} leaves");
    }
}

#[test]
fn reading_16_height_alone_raises_the_version() {
    let mut store = Store::wiped(3);
    let mut first = [0; 48];
    first[0] = 1;
    first[2..].fill(5);
    store.build_inner(2, ROOT, 1, &[1, 0]);
    store.build_leaf(1, PART, &first);
    store.build_leaf(0, PART, &[6]);
    assert_eq!(store.length(2), Ok(49));
    let before = store.clone();
    store.resize(2, 2).unwrap();
    assert_eq!(store.count(2), before.count(2));
    assert_eq!(store.block(2)[16..], before.block(2)[16..]);
    assert_eq!((store.height(2), store.version(2)), (0, 2));
    assert_eq!([0, 1].map(|slot| (store.state(slot), store.version(slot))), [(FREE, 1), (FREE, 1)]);
    assert_eq!(store.read(2, 0, 2), Ok(vec![1, 0]));
    assert_eq!(store.audit(), Ok(1));
}

#[test]
fn reading_17_a_taken_slot_counts_from_its_own_record() {
    let mut store = Store::with_blob(3, 48);
    store.set_version(0, 70);
    store.set_record(1, FREE, 500);
    store.set_record(2, FREE, 9);
    store.resize(0, 49).unwrap();
    assert_eq!(store.versions(), [71, 501, 10]);
}

#[test]
fn reading_17_from_2_to_64_minus_2_it_is_worn_from_birth() {
    let mut store = Store::wiped(2);
    store.set_record(0, FREE, WORN - 1);
    assert_eq!(store.create(), Ok(0));
    assert_eq!(store.version(0), WORN);
    assert_eq!(store.resize(0, 0), Err(plain_no(12)));
    assert_eq!(store.length(0), Ok(0));
}

#[test]
fn reading_18_worn_slots_stay_free_unusable_and_sound() {
    let mut store = Store::with_blob(3, 49);
    store.set_version(0, WORN);
    store.set_version(2, WORN);
    store.delete(0).unwrap();
    assert_eq!(store.versions(), [WORN, 1, WORN]);
    assert_eq!(store.audit(), Ok(0));
    assert_eq!(store.create(), Ok(1));
    assert_eq!(store.create(), Err(plain_no(11)));
    assert_eq!(store.resize(1, 49), Err(plain_no(11)));
    store.wipe().unwrap();
    assert_eq!(store.create(), Ok(0));
    assert_eq!(store.version(0), 1);
}

#[test]
fn reading_19_audit_counts_parts_and_roots() {
    let mut store = Store::wiped(8);
    assert_eq!(store.audit(), Ok(0));
    store.create().unwrap();
    store.create().unwrap();
    store.resize(1, 49).unwrap();
    assert_eq!(store.audit(), Ok(4));
}

#[test]
fn reading_19_show_counts_leaves_from_0() {
    let mut store = Store::with_blob(8, 0);
    assert_eq!(crate::show(&store.pool, &store.records, 0, 0), Ok((16, 0)));
    assert_eq!(store.show(0, 1), Err(plain_no(10)));
    store.resize(0, 100).unwrap();
    let places = [0, 1, 2].map(|leaf| crate::show(&store.pool, &store.records, 0, leaf));
    assert_eq!(places, [Ok((80, 48)), Ok((144, 48)), Ok((208, 4))]);
}

#[test]
fn reading_20_roots_rising_in_walk_order_then_slots_rising() {
    let mut store = Store::wiped(12);
    store.build_inner(8, ROOT, 1, &[7, 1]);
    store.build_leaf(7, PART, &[1; 48]);
    store.build_leaf(1, PART, &[1]);
    store.build_leaf(3, ROOT, &[1]);
    assert_eq!(store.audit(), Ok(4));
    store.block_mut(9)[5] = 1;
    assert_eq!(store.audit(), Err(no(9, 9)));
    store.block_mut(0)[5] = 1;
    assert_eq!(store.audit(), Err(no(9, 0)));
    store.spoil_mark(1);
    assert_eq!(store.audit(), Err(no(4, 1)));
    store.set_own_slot(7, 4);
    assert_eq!(store.audit(), Err(no(5, 7)));
    store.set_block_version(3, 2);
    assert_eq!(store.audit(), Err(no(7, 3)));
}

#[test]
fn reading_21_four_calls_answer_no_value() {
    let mut store = Store::wiped(4);
    store.create().unwrap();
    let answers: [Result<(), _>; 4] =
        [store.resize(0, 3), store.write(0, 0, &[1, 2, 3]), store.delete(0), store.wipe()];
    assert_eq!(answers, [Ok(()); 4]);
}

#[test]
fn reading_22_a_blob_is_alive_while_its_record_is_a_root() {
    let mut store = Store::wiped(4);
    assert_eq!(store.audit(), Ok(0));
    assert_eq!(store.length(0), Err(plain_no(3)));
    store.create().unwrap();
    assert_eq!((store.state(0), store.length(0)), (ROOT, Ok(0)));
    store.delete(0).unwrap();
    assert_eq!((store.state(0), store.length(0)), (FREE, Err(plain_no(3))));
    assert_eq!(store.audit(), Ok(0));
}

#[test]
fn reading_23_no_bytes_are_subject_to_every_earlier_refusal() {
    let sound = Store::with_blob(4, 49);
    type Spoiler = fn(&mut Store);
    let spoilers: [(Spoiler, crate::Refusal); 4] = [
        (|store| store.records.truncate(47), plain_no(1)),
        (|store| store.record_mut(3)[3] = 1, no(2, 3)),
        (|store| store.set_record(0, PART, 2), plain_no(3)),
        (|store| store.spoil_mark(2), no(4, 2)),
    ];
    for (spoil, refusal) in spoilers {
        let mut store = sound.clone();
        spoil(&mut store);
        assert_eq!(store.read(0, 49, 0), Err(refusal));
        assert_eq!(store.write(0, 49, &[]), Err(refusal));
    }
    let mut store = sound.clone();
    store.set_version(2, WORN);
    assert_eq!(store.read(0, 49, 0), Ok(vec![]));
    assert_eq!(store.write(0, 49, &[]), Err(plain_no(12)));
}

#[test]
fn reading_24_out_of_range_on_an_undamaged_blob_answers_10() {
    let mut store = Store::with_blob(8, 49);
    store.create().unwrap();
    store.spoil_mark(3);
    assert_eq!(store.read(0, 48, 2), Err(plain_no(10)));
    assert_eq!(store.show(0, 2), Err(plain_no(10)));
    assert_eq!(store.read(0, 48, 1), Ok(vec![0]));
}
