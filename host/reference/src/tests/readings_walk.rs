//! Readings 1 to 5: the walk.

use super::{no, Store, PART, ROOT};
use crate::shape::leaf_count;

/// A blob of height 3; answers the slots on its left edge below the root.
fn tall() -> (Store, [usize; 3]) {
    let store = Store::with_blob(200, 6_913);
    assert_eq!(store.height(0), 3);
    let two = store.children(0)[0] as usize;
    let one = store.children(two)[0] as usize;
    let leaf = store.children(one)[0] as usize;
    (store, [two, one, leaf])
}

#[test]
fn reading_1_ancestors_count_as_visited() {
    let (mut store, [two, one, _]) = tall();
    store.set_child(one, 0, two as u32);
    assert_eq!(store.length(0), Err(no(8, one as u64)));
    store.set_child(one, 0, one as u32);
    assert_eq!(store.length(0), Err(no(8, one as u64)));
    store.set_child(one, 0, 0);
    assert_eq!(store.length(0), Err(no(8, one as u64)));
    assert_eq!(store.audit(), Err(no(8, one as u64)));
}

#[test]
fn reading_1_a_link_to_another_root_is_8_too() {
    let (mut store, [_, one, _]) = tall();
    let other = store.create().unwrap();
    store.set_child(one, 3, other as u32);
    assert_eq!(store.length(0), Err(no(8, one as u64)));
    assert_eq!(store.length(other), Ok(0));
}

#[test]
fn reading_2_faults_below_earlier_children_win() {
    let (mut store, [two, one, leaf]) = tall();
    store.set_child(0, 1, 5_000);
    assert_eq!(store.length(0), Err(no(8, 0)));
    store.set_child(two, 11, 5_000);
    assert_eq!(store.length(0), Err(no(8, two as u64)));
    store.set_child(one, 11, 5_000);
    assert_eq!(store.length(0), Err(no(8, one as u64)));
    store.spoil_mark(leaf);
    assert_eq!(store.length(0), Err(no(4, leaf as u64)));
}

/// Two blobs of two leaves each, roots 0 and 3, that share leaf 1.
fn sharing() -> Store {
    let mut store = Store::wiped(6);
    store.build_inner(0, ROOT, 1, &[1, 2]);
    store.build_leaf(1, PART, &[7; 48]);
    store.build_leaf(2, PART, &[8]);
    store.build_inner(3, ROOT, 1, &[1, 4]);
    store.build_leaf(4, PART, &[9, 9]);
    store
}

#[test]
fn reading_3_each_blob_check_has_its_own_set() {
    let store = sharing();
    assert_eq!((store.length(0), store.length(3)), (Ok(49), Ok(50)));
    assert_eq!(store.read(3, 47, 3), Ok(vec![7, 9, 9]));
    assert_eq!(store.show(0, 0), store.show(3, 0));
}

#[test]
fn reading_3_the_pool_check_has_one_shared_set() {
    let mut store = sharing();
    assert_eq!(store.audit(), Err(no(8, 3)));
    assert_eq!(store.create(), Err(no(8, 3)));
    assert_eq!(store.write(0, 0, &[1]), Err(no(8, 3)));
    assert_eq!(store.resize(0, 49), Err(no(8, 3)));
    assert_eq!(store.delete(3), Err(no(8, 3)));
}

#[test]
fn reading_4_the_closing_pass_is_one_pass() {
    for (free, orphan) in [(2, 5), (5, 2)] {
        let mut store = Store::wiped(8);
        store.build_leaf(orphan, PART, &[1]);
        assert_eq!(store.audit(), Err(no(8, orphan as u64)));
        store.block_mut(free)[40] = 1;
        let first = if free < orphan { no(9, free as u64) } else { no(8, orphan as u64) };
        assert_eq!(store.audit(), Err(first));
    }
}

#[test]
fn reading_4_a_part_not_visited_is_8_whatever_its_bytes() {
    let mut store = Store::wiped(8);
    store.set_record(4, PART, 3);
    assert_eq!(store.audit(), Err(no(8, 4)));
    store.block_mut(4).fill(0xFF);
    assert_eq!(store.audit(), Err(no(8, 4)));
}

/// One store with a root of this kind and count, all below it as it should be.
fn root_of(height: u8, count: u8) -> Store {
    let mut store = Store::wiped(32);
    let children: Vec<u32> = (1..=12).take(usize::from(count)).collect();
    match height {
        0 => store.build(0, ROOT, 0, count, &[3; 48][..usize::from(count.min(48))]),
        _ => {
            for child in &children {
                store.build_leaf(*child as usize, PART, &[3; 48]);
            }
            store.build_inner(0, ROOT, height, &children);
            store.block_mut(0)[3] = count;
        }
    }
    store
}

#[test]
fn reading_5_root_counts() {
    for count in 0..=48 {
        assert_eq!(root_of(0, count).length(0), Ok(u64::from(count)));
    }
    for count in [49, 64, 255] {
        assert_eq!(root_of(0, count).length(0), Err(no(8, 0)));
    }
    for count in 2..=12 {
        assert_eq!(root_of(1, count).length(0), Ok(48 * u64::from(count)));
    }
    for count in [0, 1, 13, 64, 255] {
        assert_eq!(root_of(1, count).length(0), Err(no(8, 0)));
    }
}

/// "Heights go to 5, a root's in walk check 3 too." (W-203): 4 and 5 pass it
/// now, and the first child has another height.
#[test]
fn reading_5_root_heights() {
    for height in [2, 3, 4, 5] {
        assert_eq!(root_of(height, 2).length(0), Err(no(8, 1)));
    }
    for height in [6, 7, 255] {
        assert_eq!(root_of(height, 2).length(0), Err(no(8, 0)));
    }
}

#[test]
fn reading_5_leaf_counts_on_and_off_the_right_edge() {
    for count in 0..=255 {
        let mut store = Store::wiped(4);
        store.build_inner(0, ROOT, 1, &[1, 2]);
        store.build_leaf(1, PART, &[3; 48]);
        store.build(2, PART, 0, count, &[3; 48][..usize::from(count.min(48))]);
        let right =
            if (1..=48).contains(&count) { Ok(48 + u64::from(count)) } else { Err(no(8, 2)) };
        assert_eq!(store.length(0), right);
        store.set_child(0, 0, 2);
        store.set_child(0, 1, 1);
        let left = if count == 48 { Ok(96) } else { Err(no(8, 2)) };
        assert_eq!(store.length(0), left);
    }
}

/// A height-2 blob whose two inner children have these counts of leaves.
fn two_rows(first: u8, second: u8) -> Store {
    let mut store = Store::wiped(64);
    store.build_inner(0, ROOT, 2, &[1, 2]);
    for (slot, count) in [(1, first), (2, second)] {
        let start = 16 * slot as u32;
        let row: Vec<u32> = (start..start + 12).take(usize::from(count)).collect();
        for leaf in &row {
            store.build_leaf(*leaf as usize, PART, &[3; 48]);
        }
        store.build_inner(slot, PART, 1, &row);
        store.block_mut(slot)[3] = count;
    }
    store
}

#[test]
fn reading_5_inner_counts_on_and_off_the_right_edge() {
    for count in 0..=20 {
        let right =
            if (1..=12).contains(&count) { Ok(576 + 48 * u64::from(count)) } else { Err(no(8, 2)) };
        assert_eq!(two_rows(12, count).length(0), right, "right count {count}");
        let left = if count == 12 { Ok(624) } else { Err(no(8, 1)) };
        assert_eq!(two_rows(count, 1).length(0), left, "left count {count}");
    }
}

/// The last child of a block off the right edge is off it too.
#[test]
fn reading_5_the_last_leaf_of_an_earlier_row_is_full() {
    let mut store = two_rows(12, 3);
    let (early, last) = (27, 34);
    assert_eq!(store.children(1)[11], early);
    assert_eq!(store.children(2)[2], last);
    store.build_leaf(last as usize, PART, &[3; 47]);
    assert_eq!(store.length(0), Ok(576 + 3 * 48 - 1));
    store.build_leaf(early as usize, PART, &[3; 47]);
    assert_eq!(store.length(0), Err(no(8, u64::from(early))));
}

/// The least d follows from the counts: checked over every length that 1,024
/// slots have room for, which is no longer every one there is (W-203); those
/// about the heights 4 and 5 are in `large`.
#[test]
fn reading_5_the_height_follows_from_the_counts() {
    for leaves in 1..=937u64 {
        let store = Store::with_blob(1024, 48 * leaves);
        let least = (0..4u32).find(|d| 12u64.pow(*d) >= leaves).unwrap();
        assert_eq!(u32::from(store.height(0)), least);
        assert_eq!(leaf_count(48 * leaves), leaves);
    }
}

#[test]
fn reading_5_a_byte_after_the_used_payload() {
    for byte in 16..64 {
        let mut store = Store::with_blob(8, 0);
        store.block_mut(0)[byte] = 1;
        assert_eq!(store.length(0), Err(no(8, 0)));
        let mut store = root_of(1, 11);
        store.block_mut(0)[byte.max(60)] = 1;
        assert_eq!(store.length(0), Err(no(8, 0)));
    }
}
