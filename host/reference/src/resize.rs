//! Resize on the model, leaf by leaf as the paper tells it.

use crate::bytes::{Content, State, FAN_OUT};
use crate::cells::{take, Cell};
use crate::faults::{planted, Fault};
use crate::refusals::{No, Refusal};
use crate::shape::{leaf_count, leaf_share};
use std::vec::IntoIter;

/// The usable free slots that are left, the lowest first.
type Usable = IntoIter<usize>;

/// "Resize, longer: the last leaf fills with zeros, then leaves are added one
/// by one." No slot goes free meanwhile.
pub fn lengthen(
    cells: &mut [Cell],
    usable: Vec<usize>,
    root: usize,
    (old, new): (u64, u64),
) -> Result<(), Refusal> {
    let mut root = root;
    let mut usable = usable.into_iter();
    let mut leaves = leaf_count(old);
    fit_last_leaf(cells, root, leaf_share(new, leaves - 1));
    while leaves < leaf_count(new) {
        let height = cells[root].content.height;
        // "when n is a power of 12 (1 included) and equals 12^d for the
        // present height d"
        if leaves == (FAN_OUT as u64).pow(u32::from(height)) {
            root = raise_root(cells, &mut usable, root)?;
        }
        hang_chain(cells, &mut usable, root, leaf_share(new, leaves))?;
        leaves += 1;
    }
    Ok(())
}

/// "Resize, shorter: leaves go from the right and the last one left is cut,
/// zeros after."
pub fn shorten(cells: &mut [Cell], root: usize, old: u64, new: u64) {
    for _ in leaf_count(new)..leaf_count(old) {
        drop_last_leaf(cells, root);
        lower_root(cells, root);
    }
    fit_last_leaf(cells, root, leaf_share(new, leaf_count(new) - 1));
}

/// "first the lowest usable free slot takes the old root's height, count and
/// payload, and the root becomes height d + 1 with that one child."
/// Answers the root's slot, which stays.
fn raise_root(cells: &mut [Cell], usable: &mut Usable, root: usize) -> Result<usize, Refusal> {
    let old_root = cells[root].content;
    let taken = take_part(cells, usable, old_root)?;
    let (root, child) = match planted(Fault::RootMovesWhenTaller) {
        false => (root, taken),
        true => (taken, root),
    };
    cells[root].state = State::Root;
    cells[child].state = State::Part;
    cells[root].content = Content::empty(old_root.height + 1);
    cells[root].content.append_child(child);
    Ok(root)
}

/// "Then at the lowest block of the right edge, inner, with fewer than 12
/// children, hang a chain of new blocks one height lower each down to a leaf,
/// each taking the lowest usable free slot, top first." The lowest block is
/// the one nearest the leaves (reading 14).
fn hang_chain(
    cells: &mut [Cell],
    usable: &mut Usable,
    root: usize,
    leaf_bytes: u8,
) -> Result<(), Refusal> {
    let edge = right_edge(cells, root);
    let has_room = |slot: &&usize| {
        let content = &cells[**slot].content;
        !content.is_leaf() && usize::from(content.count) < FAN_OUT
    };
    // There is one: the root has been raised in time.
    let lowest = *edge.iter().rev().find(has_room).ok_or(No::Full.plain())?;
    let mut parent = lowest;
    for height in (0..cells[lowest].content.height).rev() {
        let mut content = Content::empty(height);
        if content.is_leaf() {
            content.count = leaf_bytes;
        }
        let child = take_part(cells, usable, content)?;
        cells[parent].content.append_child(child);
        parent = child;
    }
    Ok(())
}

/// A leaf goes from the right. "An inner block with no child goes."
pub fn drop_last_leaf(cells: &mut [Cell], root: usize) {
    let edge = right_edge(cells, root);
    for pair in edge.windows(2).rev() {
        let (parent, child) = (pair[0], pair[1]);
        cells[child].goes();
        cells[parent].content.remove_last_child();
        if cells[parent].content.count > 0 {
            break;
        }
    }
}

/// "While the root has one child only, it takes over that child's height,
/// count and payload and the child goes."
pub fn lower_root(cells: &mut [Cell], root: usize) {
    while cells[root].content.count == 1 && !planted(Fault::InnerRootWithOneChild) {
        let child = match cells[root].content.last_child() {
            Some(child) => child,
            None => return, // a leaf of one byte has no child
        };
        cells[root].content = cells[child].content;
        cells[child].goes();
    }
}

/// Gives the last leaf this many bytes: zeros join at the end when it fills,
/// and stand after the count when it is cut.
pub fn fit_last_leaf(cells: &mut [Cell], root: usize, bytes: u8) {
    let edge = right_edge(cells, root);
    let leaf = &mut cells[edge[edge.len() - 1]].content;
    let kept = usize::from(leaf.count.min(bytes));
    if !planted(Fault::StaleBytesAfterCut) {
        leaf.payload[kept..].fill(0);
    }
    leaf.count = bytes;
}

/// The slots of the right edge, from the root down to the last leaf.
fn right_edge(cells: &[Cell], root: usize) -> Vec<usize> {
    let mut edge = vec![root];
    let mut lowest = root;
    while let Some(child) = cells[lowest].content.last_child() {
        edge.push(child);
        lowest = child;
    }
    edge
}

/// A new block of the blob. There is room, as the call has counted before.
fn take_part(cells: &mut [Cell], usable: &mut Usable, content: Content) -> Result<usize, Refusal> {
    let slot = usable.next().ok_or(No::Full.plain())?;
    take(cells, slot, State::Part, content);
    Ok(slot)
}
