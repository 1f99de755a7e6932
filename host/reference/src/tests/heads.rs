//! Heads over sound blobs, and heads that were refused.

use super::{no, pattern, plain_no, Store, PART, ROOT};
use crate::{Head, Refusal};

/// Lengths about which the shape of a blob changes.
const LENGTHS: [usize; 9] = [0, 1, 47, 48, 49, 576, 577, 6_912, 6_913];

/// A blob of this length in slot 0 whose bytes differ from place to place.
fn patterned(length: usize) -> Store {
    let mut store = Store::with_blob(200, length as u64);
    store.write(0, 0, &pattern(length)).unwrap();
    store
}

/// What a new head hands out in askings of these sizes.
fn pieces(store: &Store, root: u64, sizes: impl Iterator<Item = usize>) -> Vec<Vec<u8>> {
    let mut head = store.open_head(root).unwrap();
    sizes.map(|size| store.next(&mut head, size)).collect()
}

fn sizes_of(pieces: &[Vec<u8>]) -> Vec<usize> {
    pieces.iter().map(Vec::len).collect()
}

#[test]
fn equal_pieces_joined_are_what_one_read_gives() {
    for length in LENGTHS {
        let store = patterned(length);
        for size in [1, 47, 48, 49, 576, length.max(1)] {
            let askings = length / size + 1;
            let pieces = pieces(&store, 0, (0..askings).map(|_| size));
            assert_eq!(pieces.concat(), store.content(0), "length {length}, pieces of {size}");
            let mut expected = vec![size; askings];
            expected[askings - 1] = length % size;
            assert_eq!(sizes_of(&pieces), expected);
        }
    }
}

#[test]
fn uneven_pieces_joined_are_what_one_read_gives() {
    let sizes = [0, 1, 47, 0, 48, 49, 576, 5, 96, 577, 0];
    for length in LENGTHS {
        let store = patterned(length);
        for first in 0..sizes.len() {
            let askings = sizes.iter().cycle().skip(first).take(6 * sizes.len());
            let pieces = pieces(&store, 0, askings.copied());
            assert_eq!(pieces.concat(), store.content(0), "length {length}, from size {first}");
        }
    }
}

#[test]
fn pieces_before_the_end_are_what_one_read_of_their_sum_gives() {
    let store = patterned(6_913);
    for sizes in [[0, 0, 0], [1, 0, 1], [47, 1, 1], [575, 1, 1], [6_911, 1, 1], [50, 6_000, 800]] {
        let pieces = pieces(&store, 0, sizes.into_iter());
        assert_eq!(sizes_of(&pieces), sizes);
        assert_eq!(Ok(pieces.concat()), store.read(0, 0, sizes.iter().sum()));
    }
}

#[test]
fn a_larger_output_gets_what_remains() {
    for length in LENGTHS {
        let store = patterned(length);
        for size in [length + 1, length + 48, 1_000_000] {
            assert_eq!(pieces(&store, 0, [size, size].into_iter()), [store.content(0), vec![]]);
        }
    }
}

#[test]
fn at_the_end_nothing_is_handed_out_for_ever() {
    for length in LENGTHS {
        let store = patterned(length);
        let mut head = store.open_head(0).unwrap();
        store.next(&mut head, length);
        let end = [0, length as u64, length as u64, 1];
        for size in [0, 1, 48, 1_000, 1] {
            assert_eq!(store.next(&mut head, size), []);
            assert_eq!(head, end);
        }
    }
}

#[test]
fn asking_for_no_bytes_changes_nothing() {
    let store = patterned(49);
    let mut head = store.open_head(0).unwrap();
    for place in 0..=49 {
        assert_eq!(store.next(&mut head, 0), []);
        assert_eq!(head, [0, place, 49, 1]);
        store.next(&mut head, 1);
    }
}

#[test]
fn opening_again_starts_over() {
    let store = patterned(100);
    let mut head = store.open_head(0).unwrap();
    assert_eq!(store.next(&mut head, 60), pattern(60));
    let length = crate::open_head(&store.pool, &store.records, 0, &mut head);
    assert_eq!((length, head), (Ok(100), [0, 0, 100, 1]));
    assert_eq!(store.next(&mut head, 60), pattern(60));
}

#[test]
fn two_heads_keep_their_own_places() {
    let mut store = Store::with_blob(8, 60);
    store.write(0, 0, &pattern(60)).unwrap();
    assert_eq!(store.create(), Ok(3));
    store.resize(3, 50).unwrap();
    store.write(3, 0, &[0xAB; 50]).unwrap();
    let (mut one, mut other) = (store.open_head(0).unwrap(), store.open_head(3).unwrap());
    assert_eq!(store.next(&mut one, 50), pattern(50));
    assert_eq!(store.next(&mut other, 49), [0xAB; 49]);
    assert_eq!(store.next(&mut one, 50), pattern(60)[50..]);
    assert_eq!(store.next(&mut other, 49), [0xAB; 1]);
}

#[test]
fn the_row_decides_and_not_the_order_of_the_slots() {
    let mut store = Store::wiped(4);
    store.build_inner(3, ROOT, 1, &[2, 0, 1]);
    store.build_leaf(2, PART, &[2; 48]);
    store.build_leaf(0, PART, &[5; 48]);
    store.build_leaf(1, PART, &[9]);
    let joined = [&[2; 48][..], &[5; 48], &[9]].concat();
    assert_eq!(pieces(&store, 3, [40, 40, 40].into_iter()).concat(), joined);
}

/// A refused head hands out nothing, and stays as it is.
fn hands_out_nothing(store: &Store, mut head: Head) {
    let before = head;
    for size in [0, 1, 48, 1_000] {
        assert_eq!(store.next(&mut head, size), []);
        assert_eq!(head, before);
    }
}

/// Opening this root is refused like this, as length is.
fn is_refused(store: &Store, root: u64, refusal: Refusal) {
    assert_eq!(store.length(root), Err(refusal));
    let mut head = patterned(49).open_head(0).unwrap();
    let answer = crate::open_head(&store.pool, &store.records, root, &mut head);
    assert_eq!((answer, head), (Err(refusal), [0; 4]));
    hands_out_nothing(store, head);
    hands_out_nothing(&patterned(49), head);
}

#[test]
fn a_refused_head_hands_out_nothing() {
    type Spoiler = fn(&mut Store);
    let spoilers: [(Spoiler, Refusal); 9] = [
        (|store| store.pool.truncate(255), plain_no(1)),
        (|store| store.record_mut(3)[3] = 1, no(2, 3)),
        (|store| store.set_record(0, PART, 2), plain_no(3)),
        (|store| store.spoil_mark(2), no(4, 2)),
        (|store| store.set_own_slot(1, 2), no(5, 1)),
        (|store| store.set_block_version(2, 0), no(6, 2)),
        (|store| store.set_block_version(0, 9), no(7, 0)),
        (|store| store.block_mut(2)[3] = 0, no(8, 2)),
        (|store| store.set_record(2, 0, 1), no(9, 2)),
    ];
    for (spoil, refusal) in spoilers {
        let mut store = Store::with_blob(4, 49);
        spoil(&mut store);
        is_refused(&store, 0, refusal);
    }
}

#[test]
fn a_root_that_is_none_is_refused() {
    let store = Store::with_blob(4, 49);
    for root in [1, 2, 3, 4, 1 << 32, u64::MAX] {
        is_refused(&store, root, plain_no(3));
    }
}

#[test]
fn opening_does_not_look_at_other_blobs() {
    let mut store = Store::with_blob(8, 49);
    assert_eq!(store.create(), Ok(3));
    store.spoil_mark(3);
    store.block_mut(5)[0] = 1;
    assert_eq!(store.open_head(0), Ok([0, 0, 49, 1]));
}
