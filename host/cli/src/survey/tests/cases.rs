//! Damage that is known, and what is listed of it.

use super::super::*;
use super::{large, small, Store};
use tjornsaki::{BLOCK_BYTES, RECORD_BYTES};

/// The survey of a pool with bytes changed at these places.
fn with(store: &Store, changes: &[(usize, usize, u8)]) -> Survey {
    let mut pool = store.pool();
    changes.iter().for_each(|(slot, place, byte)| pool[slot * BLOCK_BYTES + place] = *byte);
    Survey::new(&pool, &store.records).unwrap()
}

fn listed(survey: &Survey) -> Vec<(u64, u64, &[u64])> {
    let rows = survey.bad.iter();
    rows.map(|bad| (bad.refusal.slot.unwrap(), bad.refusal.number, &bad.hurts[..])).collect()
}

/// Blob 0 lies in slots 0 to 3, blob 4 in slot 4, blob 5 in 5 to 10, blob 11 in
/// slot 11; the others are free.
#[test]
fn three_in_one_blob() {
    let survey = with(&small(), &[(1, 0, 0), (3, 4, 9), (14, 63, 1)]);
    assert_eq!(listed(&survey), [(1, 4, &[0][..]), (3, 5, &[0]), (14, 9, &[])]);
    assert_eq!(survey.cut_off, []);
    assert_eq!(survey.audit, Err(refused(4, 1)));
}

#[test]
fn below_a_bad_root() {
    let survey = with(&small(), &[(0, 8, 1), (2, 0, 0), (11, 0, 0)]);
    assert_eq!(listed(&survey), [(0, 6, &[0][..]), (2, 4, &[0, 11]), (11, 4, &[11])]);
    assert_eq!(survey.cut_off, [1, 3]);
    assert_eq!(survey.bad.iter().map(|bad| bad.cut_off).collect::<Vec<_>>(), [false, true, false]);
}

/// With nothing bad above it, a part in no row is itself the fault.
#[test]
fn a_part_in_no_row() {
    let mut store = small();
    let free = 15 * RECORD_BYTES;
    store.records[free..][..RECORD_BYTES]
        .copy_from_slice(&[0x52, 0x31, 1, 0, 7, 0, 0, 0, 0, 0, 0, 0]);
    let survey = with(&store, &[]);
    assert_eq!(listed(&survey), [(15, 8, &[][..])]);
    assert_eq!((survey.audit, survey.cut_off), (Err(refused(8, 15)), vec![]));
}

/// A block in the rows of two blobs: both read, and no change is made.
#[test]
fn a_block_in_two_rows() {
    let survey = with(&small(), &[(5, 16, 1)]);
    assert_eq!(survey.audit, Err(refused(8, 5)));
    assert_eq!(listed(&survey), [(5, 8, &[][..])]);
    assert_eq!(survey.cut_off, [6]);
    assert!(survey.blobs.iter().all(|blob| blob.length.is_ok()));
}

/// Of a whole tree in two rows only the later row is at fault.
#[test]
fn a_tree_in_two_rows() {
    let store = large();
    let roots = roots(&records(&store.records));
    let child = |root: u64, place: usize| {
        block(&store.pool(), root as usize).map_or(0, |block| block.children()[place])
    };
    let (shared, lost) = (child(roots[0], 0), child(roots[3], 0));
    let survey = with(&store, &[(roots[3] as usize, 16, shared as u8)]);
    assert_eq!(listed(&survey), [(roots[3], 8, &[][..])]);
    let below = block(&store.pool(), lost).map_or(vec![], |block| block.children());
    let mut all: Vec<u64> = below.iter().chain([&lost]).map(|slot| *slot as u64).collect();
    all.sort_unstable();
    assert_eq!(all.len(), 13);
    assert_eq!(survey.cut_off, all);
}
