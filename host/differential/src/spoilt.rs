//! One blob in slot 0, the only one, spoilt in a place at a time: every call
//! refuses with the number and the slot that the walk says.

use crate::bench::Step;
use crate::call::Call;
use crate::hostile::{in_block, in_record, link};
use crate::layout::{View, BLOCK, FREE};
use crate::run::Finding;
use crate::told::Told;

/// What is done to the store, and what the walk then says.
struct Spoilt {
    step: Step,
    number: u64,
    slot: usize,
}

/// Up to so many slots every call is made, and every block on both edges spoilt.
const CHEAP: usize = 2_000;
/// The greatest height of a root.
const HIGHEST: u8 = 5;

/// Spoils the blob's blocks in turn. `old` is the pool of an earlier moment.
pub fn try_spoilt(told: &mut Told, old: &[u8]) -> Result<(), Finding> {
    told.step(Step::Keep)?;
    let view = told.view();
    let is_cheap = view.slots() <= CHEAP;
    let spoilt: Vec<Spoilt> =
        targets(view, is_cheap).into_iter().flat_map(|slot| ways(view, old, slot)).collect();
    for (index, Spoilt { step, number, slot }) in spoilt.into_iter().enumerate() {
        told.step(step)?;
        for call in calls(index, is_cheap) {
            told.refused(Step::Call(call), number, Some(slot as u64))?;
        }
        told.step(Step::GoBack)?;
    }
    Ok(())
}

/// Both edges, or only the root, a block below it and the last leaf.
fn targets(view: View, all: bool) -> Vec<usize> {
    let left = edge(view, |row| row[0]);
    let right = edge(view, |row| row[row.len() - 1]);
    match all {
        true => left.into_iter().chain(right.into_iter().skip(1)).collect(),
        false => vec![0, left[1], right[right.len() - 1]],
    }
}

/// The slots from the root down to a leaf.
fn edge(view: View, child: impl Fn(&[usize]) -> usize) -> Vec<usize> {
    let next = |slot: &usize| Some(view.children(*slot)).filter(|row| !row.is_empty());
    std::iter::successors(Some(0), |slot| next(slot).map(|row| child(&row))).collect()
}

/// All ways to spoil this block of the blob.
fn ways(view: View, old: &[u8], slot: usize) -> Vec<Spoilt> {
    let other = if slot == 1 { 2 } else { 1 };
    let version = view.version(slot) + 1;
    let spoilt = |step, number| Spoilt { step, number, slot };
    let mut ways = vec![
        spoilt(in_block(slot, 0, &[0; BLOCK]), 4),
        spoilt(in_block(slot, 0, view.block(other)), 5),
        spoilt(in_block(slot, 8, &version.to_le_bytes()), 7),
        spoilt(in_block(slot, 3, &[49]), 8),
    ];
    let was = &old[slot * BLOCK..(slot + 1) * BLOCK];
    if was != view.block(slot) {
        ways.push(spoilt(in_block(slot, 0, was), 6));
    }
    match slot {
        0 => ways.extend(wrong_heights(view)),
        _ => ways.push(spoilt(in_record(slot, 2, &[FREE]), 9)),
    }
    ways.extend(far_children(view, slot));
    ways
}

/// A root one height off up to the greatest one passes, and its first child has
/// the wrong height; a greater one does not pass.
fn wrong_heights(view: View) -> Vec<Spoilt> {
    let wrong = |height: u8| Spoilt {
        step: in_block(0, 2, &[height]),
        number: 8,
        slot: if height > HIGHEST { 0 } else { view.children(0)[0] },
    };
    let others = (3..=6).filter(|height| *height != view.height(0));
    others.map(wrong).collect()
}

/// "For a child slot: not below N .. 8, naming the parent. State free: 9, naming
/// the child." The last slot of the largest pool is free. The last of these has
/// the right number in its lower two bytes.
fn far_children(view: View, slot: usize) -> Vec<Spoilt> {
    let row = view.children(slot);
    if row.is_empty() {
        return Vec::new();
    }
    let far = |child: usize| match child < view.slots() {
        true => Spoilt { step: link(slot, row.len() - 1, child), number: 9, slot: child },
        false => Spoilt { step: link(slot, row.len() - 1, child), number: 8, slot },
    };
    let children = [view.slots(), 65_535, 65_536, u32::MAX as usize, 65_536 + row[row.len() - 1]];
    children.map(far).into()
}

/// The calls after one way: all, or one in turn.
fn calls(index: usize, all: bool) -> Vec<Call> {
    let root = 0;
    let calls = [
        Call::Audit,
        Call::Length { root },
        Call::Write { root, offset: 0, size: 1, fill: 5 },
        Call::Read { root, offset: 0, size: 1 },
        Call::Resize { root, length: 1 },
        Call::Show { root, leaf: 0 },
        Call::Create,
        Call::OpenHead { root },
        Call::Delete { root },
        Call::Scan { root, size: 100 },
    ];
    match all {
        true => calls.to_vec(),
        false => vec![calls[index % calls.len()]],
    }
}
