//! Versions: once per call, reused slots, worn slots.

use super::{no, pattern, plain_no, Store, FREE, WORN};

#[test]
fn a_write_raises_only_the_leaves_whose_bytes_differ() {
    let mut store = Store::with_blob(8, 144);
    store.write(0, 47, &[1, 0, 0]).unwrap();
    assert_eq!(store.versions()[..4], [2, 2, 1, 1]);
    store.write(0, 0, &pattern(144)).unwrap();
    assert_eq!(store.versions()[..4], [2, 3, 2, 2]);
}

#[test]
fn equal_bytes_change_nothing() {
    let mut store = Store::with_blob(40, 700);
    store.write(0, 0, &pattern(700)).unwrap();
    let before = store.clone();
    store.write(0, 0, &pattern(700)).unwrap();
    store.write(0, 40, &pattern(700)[40..300]).unwrap();
    assert_eq!(store, before);
}

#[test]
fn one_call_raises_a_version_once() {
    let mut store = Store::with_blob(64, 10);
    assert_eq!(store.version(0), 2);
    store.resize(0, 1_000).unwrap();
    assert_eq!(store.version(0), 3);
    store.resize(0, 3).unwrap();
    assert_eq!(store.version(0), 4);
}

#[test]
fn an_inner_block_that_gains_or_loses_children_is_raised_once_per_call() {
    let mut store = Store::with_blob(64, 577);
    let before = store.versions();
    store.resize(0, 48 * 20).unwrap();
    assert_eq!(store.version(14), before[14] + 1);
    assert_eq!(store.version(13), before[13]);
    assert_eq!(store.version(0), before[0]);
    store.resize(0, 577).unwrap();
    assert_eq!(store.version(14), before[14] + 2);
}

#[test]
fn a_reused_slot_goes_on_from_its_old_version() {
    let mut store = Store::wiped(1);
    for life in 1..=5 {
        assert_eq!(store.create(), Ok(0));
        assert_eq!(store.version(0), 2 * life - 1);
        store.resize(0, 4).unwrap();
        assert_eq!(store.version(0), 2 * life);
        store.delete(0).unwrap();
        assert_eq!((store.state(0), store.version(0)), (FREE, 2 * life));
    }
}

#[test]
fn a_block_of_an_earlier_life_is_rolled_back() {
    let mut store = Store::with_blob(4, 49);
    let earlier = store.block(2).to_vec();
    store.resize(0, 48).unwrap();
    store.resize(0, 49).unwrap();
    assert_eq!(store.versions(), [4, 2, 2, 0]);
    store.block_mut(2).copy_from_slice(&earlier);
    assert_eq!(store.length(0), Err(no(6, 2)));
}

#[test]
fn delete_keeps_every_version() {
    let mut store = Store::with_blob(32, 577);
    store.write(0, 100, &[1, 2, 3]).unwrap();
    let before = store.versions();
    store.delete(0).unwrap();
    assert_eq!(store.versions(), before);
    assert_eq!(store.pool, vec![0; 64 * 32]);
    assert_eq!(store.audit(), Ok(0));
}

#[test]
fn the_last_change_of_a_slot_wears_it() {
    let mut store = Store::with_blob(4, 10);
    store.set_version(0, WORN - 1);
    store.write(0, 0, &[0; 10]).unwrap();
    assert_eq!(store.version(0), WORN - 1);
    store.write(0, 0, &[1]).unwrap();
    assert_eq!(store.version(0), WORN);
    assert_eq!(store.write(0, 0, &[2]), Err(plain_no(12)));
    assert_eq!(store.resize(0, 0), Err(plain_no(12)));
    assert_eq!(store.read(0, 0, 2), Ok(vec![1, 0]));
    assert_eq!(store.show(0, 0), Ok(&[1, 0, 0, 0, 0, 0, 0, 0, 0, 0][..]));
    assert_eq!(store.delete(0), Ok(()));
    assert_eq!(store.create(), Ok(1));
}

#[test]
fn growth_skips_worn_free_slots() {
    let mut store = Store::with_blob(6, 48);
    store.set_record(1, FREE, WORN);
    store.set_record(3, FREE, WORN);
    store.set_record(4, FREE, WORN - 1);
    assert_eq!(store.resize(0, 145), Err(plain_no(11)));
    store.resize(0, 97).unwrap();
    assert_eq!(store.children(0), [2, 4, 5]);
    assert_eq!(store.versions(), [3, WORN, 1, WORN, WORN, 1]);
    assert_eq!(store.audit(), Ok(4));
    assert_eq!(store.resize(0, 0), Err(plain_no(12)));
}

#[test]
fn wipe_starts_all_versions_over() {
    let mut store = Store::with_blob(4, 49);
    store.wipe().unwrap();
    assert_eq!(store.versions(), [0; 4]);
}
