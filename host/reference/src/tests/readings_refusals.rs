//! Readings 6 to 11: refusals.

use super::{no, plain_no, Store, FREE, PART, ROOT, WORN};

#[test]
fn reading_6_what_breaks_a_record() {
    for state in [PART, ROOT] {
        let mut store = Store::wiped(2);
        store.set_record(1, state, 0);
        assert_eq!(store.audit(), Err(no(2, 1)));
    }
    for state in 3..=255 {
        let mut store = Store::wiped(2);
        store.set_record(1, state, 9);
        assert_eq!(store.audit(), Err(no(2, 1)));
    }
    for state in [FREE, PART, ROOT] {
        for byte in [0, 1, 3] {
            let mut store = Store::wiped(2);
            store.set_record(1, state, 9);
            store.record_mut(1)[byte] ^= 0x10;
            assert_eq!(store.audit(), Err(no(2, 1)));
        }
    }
}

#[test]
fn reading_6_a_free_record_may_have_any_version() {
    for version in [0, 1, 1 << 33, WORN - 1, WORN] {
        let mut store = Store::wiped(2);
        store.set_record(1, FREE, version);
        assert_eq!(store.audit(), Ok(0));
    }
}

#[test]
fn reading_7_a_root_number_is_compared_whole() {
    let mut store = Store::with_blob(4, 10);
    for root in [1 << 32, 1 << 63, (1 << 32) * 7] {
        assert_eq!(store.length(root), Err(plain_no(3)));
        assert_eq!(store.resize(root, 1), Err(plain_no(3)));
        assert_eq!(store.delete(root), Err(plain_no(3)));
    }
}

#[test]
fn reading_7_three_before_the_check_and_two_for_any_slot() {
    let mut store = Store::with_blob(4, 10);
    store.block_mut(3)[9] = 1;
    assert_eq!(store.delete(1), Err(plain_no(3)));
    store.record_mut(3)[3] = 9;
    assert_eq!(store.delete(1), Err(no(2, 3)));
    assert_eq!(store.length(0), Err(no(2, 3)));
}

#[test]
fn reading_8_twelve_even_if_nothing_would_change() {
    let mut store = Store::with_blob(4, 49);
    store.set_version(1, WORN);
    assert_eq!(store.write(0, 0, &[]), Err(plain_no(12)));
    assert_eq!(store.write(0, 0, &[0; 49]), Err(plain_no(12)));
    for length in [49, 48, 0, 50, u64::MAX] {
        assert_eq!(store.resize(0, length), Err(plain_no(12)));
    }
    assert_eq!(store.write(0, 50, &[]), Err(plain_no(12)));
}

#[test]
fn reading_8_only_the_named_blob_counts() {
    let mut store = Store::with_blob(8, 49);
    assert_eq!(store.create(), Ok(3));
    store.set_version(3, WORN);
    assert_eq!(store.resize(0, 96), Ok(()));
    assert_eq!(store.write(0, 95, &[1]), Ok(()));
    assert_eq!(store.resize(3, 0), Err(plain_no(12)));
}

#[test]
fn reading_9_the_sum_is_unbounded_and_size_0_ends_at_the_length() {
    let mut store = Store::with_blob(8, 100);
    for offset in [0, 48, 99, 100] {
        assert_eq!(store.read(0, offset, 0), Ok(vec![]));
        assert_eq!(store.write(0, offset, &[]), Ok(()));
    }
    for offset in [101, 1 << 32, u64::MAX] {
        assert_eq!(store.read(0, offset, 0), Err(plain_no(10)));
        assert_eq!(store.write(0, offset, &[]), Err(plain_no(10)));
    }
    for size in 1..=120 {
        let offset = u64::MAX - size as u64 + 1;
        assert_eq!(store.read(0, offset, size), Err(plain_no(10)));
        assert_eq!(store.write(0, offset, &vec![0; size]), Err(plain_no(10)));
    }
}

#[test]
fn reading_10_too_long_is_11_for_any_n() {
    for slots in [1, 2, 3, 17, 1024] {
        let mut store = Store::with_blob(slots, 5);
        for length in [44_977, 1 << 32, 1 << 48, 1 << 63, u64::MAX - 1, u64::MAX] {
            assert_eq!(store.resize(0, length), Err(plain_no(11)));
        }
    }
}

#[test]
fn reading_10_the_need_is_the_difference_of_the_totals() {
    let mut store = Store::with_blob(16, 576);
    assert_eq!(store.audit(), Ok(13));
    assert_eq!(store.resize(0, 577), Ok(()));
    let mut store = Store::with_blob(15, 576);
    assert_eq!(store.resize(0, 577), Err(plain_no(11)));
}

#[test]
fn reading_10_lengthening_inside_the_last_leaf_needs_none() {
    let mut store = Store::with_blob(3, 49);
    assert_eq!(store.create(), Err(plain_no(11)));
    assert_eq!(store.resize(0, 96), Ok(()));
    assert_eq!(store.resize(0, 97), Err(plain_no(11)));
    assert_eq!(store.read(0, 0, 96), Ok(vec![0; 96]));
}

#[test]
fn reading_11_create_is_11_when_only_worn_slots_are_free() {
    let mut store = Store::wiped(3);
    for slot in 0..3 {
        store.set_record(slot, FREE, WORN);
    }
    assert_eq!(store.create(), Err(plain_no(11)));
    store.set_record(2, FREE, WORN - 1);
    assert_eq!(store.create(), Ok(2));
}

#[test]
fn reading_11_wipe_succeeds_on_any_bytes() {
    for filler in [0x00, 0x31, 0xFF] {
        let mut store = Store { pool: vec![filler; 64 * 5], records: vec![filler; 12 * 5] };
        assert_eq!(store.wipe(), Ok(()));
        assert_eq!(store, Store::wiped(5));
        assert_eq!(store.pool, vec![0; 64 * 5]);
        assert_eq!(store.audit(), Ok(0));
    }
}
