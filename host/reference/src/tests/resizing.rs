//! Growth and shrinking: shape, slots and bytes.

use super::{pattern, plain_no, Store, FREE};

#[test]
fn growth_to_577_raises_the_root_twice_in_one_call() {
    let store = Store::with_blob(32, 577);
    assert_eq!((store.height(0), store.version(0)), (2, 2));
    assert_eq!(store.children(0), [13, 14]);
    assert_eq!((store.height(13), store.version(13)), (1, 1));
    assert_eq!(store.children(13), (1..=12).collect::<Vec<u32>>());
    assert_eq!((store.height(14), store.children(14)), (1, vec![15]));
    assert_eq!((store.height(15), store.count(15)), (0, 1));
    assert_eq!(store.audit(), Ok(16));
    assert_eq!(store.content(0), vec![0; 577]);
}

#[test]
fn growth_to_577_leaf_by_leaf_gives_the_same_shape_and_content() {
    let at_once = Store::with_blob(32, 577);
    for step in [1, 48] {
        let mut by_steps = Store::with_blob(32, 0);
        for length in (step..577).step_by(step as usize).chain([577]) {
            by_steps.resize(0, length).unwrap();
        }
        assert_eq!(by_steps.without_versions(), at_once.without_versions());
        assert_eq!(by_steps.content(0), at_once.content(0));
    }
}

#[test]
fn growth_keeps_what_was_written() {
    let mut store = Store::with_blob(400, 30);
    store.write(0, 0, &pattern(30)).unwrap();
    for length in [31, 48, 49, 577, 6_913, 14_000] {
        store.resize(0, length).unwrap();
        let mut expected = pattern(30);
        expected.resize(length as usize, 0);
        assert_eq!(store.content(0), expected);
    }
}

#[test]
fn three_raises_in_one_call() {
    let store = Store::with_blob(161, 6_913);
    assert_eq!((store.height(0), store.version(0)), (3, 2));
    assert_eq!(store.audit(), Ok(161));
    // 157 blocks for 144 leaves, then the root's content and a chain of three.
    assert_eq!(store.children(0), [157, 158]);
    assert_eq!((store.height(157), store.height(158)), (2, 2));
    assert_eq!(store.children(158), [159]);
    assert_eq!(store.children(159), [160]);
    assert_eq!((store.height(160), store.count(160)), (0, 1));
}

#[test]
fn from_6913_to_0() {
    let mut store = Store::with_blob(161, 6_913);
    store.write(0, 0, &pattern(6_913)).unwrap();
    let before = store.clone();
    store.resize(0, 0).unwrap();
    assert_eq!((store.height(0), store.count(0)), (0, 0));
    assert_eq!(store.block(0)[16..], [0; 48]);
    assert_eq!(store.version(0), before.version(0) + 1);
    for slot in 1..161 {
        assert_eq!((store.state(slot), store.version(slot)), (FREE, before.version(slot)));
    }
    assert_eq!((store.audit(), store.length(0)), (Ok(1), Ok(0)));
}

#[test]
fn from_6913_to_6912_collapses_one_height() {
    let mut store = Store::with_blob(161, 6_913);
    store.write(0, 0, &pattern(6_913)).unwrap();
    store.resize(0, 6_912).unwrap();
    assert_eq!((store.height(0), store.count(0)), (2, 12));
    assert_eq!(store.audit(), Ok(157));
    assert_eq!([157, 158, 159, 160].map(|slot| store.state(slot)), [FREE; 4]);
    assert_eq!(store.content(0), pattern(6_912));
}

#[test]
fn shrinking_by_steps_gives_the_same_shape_and_content() {
    let mut start = Store::with_blob(200, 6_913);
    start.write(0, 0, &pattern(6_913)).unwrap();
    let mut by_steps = start.clone();
    for length in (0..6_913).rev().step_by(31) {
        by_steps.resize(0, length).unwrap();
        let mut at_once = start.clone();
        at_once.resize(0, length).unwrap();
        assert_eq!(by_steps.without_versions(), at_once.without_versions());
        assert_eq!(at_once.content(0), pattern(length as usize));
    }
}

#[test]
fn shrinking_leaves_no_stale_bytes() {
    let mut store = Store::with_blob(4, 48);
    store.write(0, 0, &pattern(48)).unwrap();
    store.resize(0, 12).unwrap();
    assert_eq!(store.block(0)[28..], [0; 36]);
    store.resize(0, 48).unwrap();
    let mut expected = pattern(12);
    expected.resize(48, 0);
    assert_eq!(store.content(0), expected);
}

#[test]
fn forty_four_thousand_nine_hundred_and_seventy_six_bytes_and_one_more() {
    let mut store = Store::with_blob(1024, 44_976);
    assert_eq!((store.height(0), store.audit()), (3, Ok(1024)));
    store.write(0, 0, &pattern(44_976)).unwrap();
    assert_eq!(store.content(0), pattern(44_976));
    assert_eq!(store.resize(0, 44_977), Err(plain_no(11)));
    store.resize(0, 1).unwrap();
    assert_eq!((store.audit(), store.content(0)), (Ok(1), vec![1]));
}

#[test]
fn the_root_stays_in_its_slot_and_others_are_untouched() {
    let mut store = Store::wiped(64);
    for slot in 0..3 {
        assert_eq!(store.create(), Ok(slot));
    }
    store.resize(1, 600).unwrap();
    store.resize(2, 100).unwrap();
    store.write(2, 0, &pattern(100)).unwrap();
    let before = store.clone();
    for length in [1_000, 577, 576, 48, 0, 700] {
        store.resize(1, length).unwrap();
        assert_eq!(store.length(1), Ok(length));
        for slot in [0, 2].into_iter().chain(store.children(2).iter().map(|slot| *slot as usize)) {
            assert_eq!(store.block(slot), before.block(slot));
            assert_eq!(store.record(slot), before.record(slot));
        }
    }
}

#[test]
fn shorter_never_needs_a_slot() {
    let mut store = Store::with_blob(16, 577);
    for length in (0..577).rev().step_by(5) {
        assert_eq!(store.resize(0, length), Ok(()));
    }
}
