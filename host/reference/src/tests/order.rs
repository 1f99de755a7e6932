//! "Order, the first that holds being given": every neighbouring pair, and
//! the pairs inside the walk.

use super::{no, plain_no, Store, FREE, PART, ROOT, WORN};

#[test]
fn one_before_two() {
    let mut store = Store::with_blob(4, 49);
    store.record_mut(0)[0] = 0;
    assert_eq!(store.audit(), Err(no(2, 0)));
    store.records.push(0);
    assert_eq!(store.audit(), Err(plain_no(1)));
    assert_eq!(store.length(0), Err(plain_no(1)));
    assert_eq!(store.resize(0, 1), Err(plain_no(1)));
}

#[test]
fn two_before_three() {
    let mut store = Store::with_blob(4, 49);
    store.record_mut(3)[2] = 3;
    for root in [1, 3, 4, u64::MAX] {
        assert_eq!(store.length(root), Err(no(2, 3)));
        assert_eq!(store.write(root, 0, &[]), Err(no(2, 3)));
        assert_eq!(store.delete(root), Err(no(2, 3)));
    }
}

#[test]
fn three_before_the_pool_check() {
    let mut store = Store::with_blob(4, 49);
    store.spoil_mark(0);
    for root in [1, 3, 4] {
        assert_eq!(store.length(root), Err(plain_no(3)));
        assert_eq!(store.write(root, 0, &[]), Err(plain_no(3)));
        assert_eq!(store.resize(root, 0), Err(plain_no(3)));
        assert_eq!(store.delete(root), Err(plain_no(3)));
    }
}

#[test]
fn two_before_the_pool_check() {
    let mut store = Store::with_blob(4, 49);
    store.spoil_mark(0);
    store.record_mut(3)[0] = 0;
    assert_eq!(store.audit(), Err(no(2, 3)));
    assert_eq!(store.create(), Err(no(2, 3)));
}

#[test]
fn a_bad_child_slot_before_its_mark() {
    let mut store = Store::with_blob(8, 49);
    assert_eq!(store.create(), Ok(3));
    store.spoil_mark(3);
    store.set_child(0, 1, 3);
    assert_eq!(store.length(0), Err(no(8, 0)));
}

#[test]
fn a_free_child_before_its_mark() {
    let mut store = Store::with_blob(8, 49);
    store.set_record(2, FREE, 1);
    store.spoil_mark(2);
    assert_eq!(store.length(0), Err(no(9, 2)));
}

#[test]
fn four_before_five() {
    let mut store = Store::with_blob(8, 49);
    store.set_own_slot(2, 7);
    assert_eq!(store.length(0), Err(no(5, 2)));
    store.spoil_mark(2);
    assert_eq!(store.length(0), Err(no(4, 2)));
}

#[test]
fn five_before_six_and_seven() {
    for version in [0, 9] {
        let mut store = Store::with_blob(8, 49);
        store.set_block_version(2, version);
        store.set_own_slot(2, 7);
        assert_eq!(store.length(0), Err(no(5, 2)));
    }
}

#[test]
fn six_and_seven_before_eight() {
    for (version, number) in [(0, 6), (9, 7)] {
        let mut store = Store::with_blob(8, 49);
        store.block_mut(2)[2] = 200;
        store.block_mut(2)[3] = 200;
        assert_eq!(store.length(0), Err(no(8, 2)));
        store.set_block_version(2, version);
        assert_eq!(store.length(0), Err(no(number, 2)));
    }
}

#[test]
fn a_block_before_its_row() {
    let mut store = Store::with_blob(8, 49);
    store.set_child(0, 0, 900);
    assert_eq!(store.length(0), Err(no(8, 0)));
    store.set_block_version(0, 1);
    assert_eq!(store.length(0), Err(no(6, 0)));
    let mut store = Store::with_blob(8, 49);
    store.spoil_mark(1);
    store.block_mut(0)[60] = 1;
    assert_eq!(store.length(0), Err(no(8, 0)));
}

#[test]
fn the_walks_before_the_closing_pass() {
    let mut store = Store::wiped(8);
    store.block_mut(0)[0] = 1;
    store.build_leaf(1, PART, &[1]);
    store.build_leaf(2, ROOT, &[1]);
    assert_eq!(store.audit(), Err(no(9, 0)));
    store.spoil_mark(2);
    assert_eq!(store.audit(), Err(no(4, 2)));
}

#[test]
fn lower_roots_before_higher_ones() {
    let mut store = Store::wiped(8);
    for slot in 0..4 {
        assert_eq!(store.create(), Ok(slot));
    }
    store.spoil_mark(3);
    assert_eq!(store.audit(), Err(no(4, 3)));
    store.set_block_version(1, 7);
    assert_eq!(store.audit(), Err(no(7, 1)));
    assert_eq!(store.delete(2), Err(no(7, 1)));
    assert_eq!(store.length(2), Ok(0));
}

#[test]
fn the_pool_check_before_twelve() {
    let mut store = Store::with_blob(8, 49);
    store.set_version(0, WORN);
    assert_eq!(store.write(0, 0, &[1]), Err(plain_no(12)));
    store.block_mut(7)[0] = 1;
    assert_eq!(store.write(0, 0, &[1]), Err(no(9, 7)));
    assert_eq!(store.resize(0, 0), Err(no(9, 7)));
}

#[test]
fn twelve_before_ten_and_eleven() {
    let mut store = Store::with_blob(3, 49);
    store.set_version(2, WORN);
    assert_eq!(store.write(0, 49, &[1]), Err(plain_no(12)));
    assert_eq!(store.resize(0, 1000), Err(plain_no(12)));
    store.set_version(2, WORN - 1);
    assert_eq!(store.write(0, 49, &[1]), Err(plain_no(10)));
    assert_eq!(store.resize(0, 1000), Err(plain_no(11)));
}

#[test]
fn the_blob_check_before_ten() {
    let mut store = Store::with_blob(8, 49);
    store.block_mut(2)[3] = 49;
    assert_eq!(store.read(0, 200, 1), Err(no(8, 2)));
    assert_eq!(store.show(0, 2), Err(no(8, 2)));
    assert_eq!(store.write(0, 200, &[1]), Err(no(8, 2)));
}

#[test]
fn the_pool_check_before_ten_and_eleven() {
    let mut store = Store::with_blob(1, 40);
    store.block_mut(0)[63] = 1;
    assert_eq!(store.create(), Err(no(8, 0)));
    assert_eq!(store.resize(0, 1000), Err(no(8, 0)));
    store.block_mut(0)[63] = 0;
    assert_eq!(store.create(), Err(plain_no(11)));
    assert_eq!(store.resize(0, 1000), Err(plain_no(11)));
}

/// 10 and 11 never meet: a write needs no block, a resize has no range.
#[test]
fn ten_and_eleven_have_no_call_in_common() {
    let mut store = Store::with_blob(1, 40);
    assert_eq!(store.write(0, 40, &[1]), Err(plain_no(10)));
    assert_eq!(store.resize(0, u64::MAX), Err(plain_no(11)));
}
