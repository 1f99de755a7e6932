//! Ways to spoil a store, and ways to bring it into a sound state that no run
//! of calls would reach soon. Each gives steps, or none where it does not fit.

use crate::bench::{Area, Step};
use crate::call::Call;
use crate::chance::Chance;
use crate::draw::{draw_asking, draw_head};
use crate::layout::{View, BLOCK, FREE, PART, PAYLOAD, RECORD, ROOT};
use tjornsaki::raw::HeadNumbers;

/// A block that lay in this slot at some time.
#[derive(Clone, Copy)]
pub struct OldBlock {
    pub slot: usize,
    pub bytes: [u8; BLOCK],
}

/// What one who spoils a store may look at.
pub struct Scene<'a> {
    pub view: View<'a>,
    pub past: &'a [OldBlock],
}

type Raid = fn(&mut Chance, &Scene) -> Option<Vec<Step>>;

/// All ways, by name.
pub const RAIDS: [(&str, Raid); 23] = [
    ("a bit of the pool flipped", flip_pool_bit),
    ("a bit of the records flipped", flip_record_bit),
    ("a block copied to another slot", copy_block),
    ("two blocks exchanged", exchange_blocks),
    ("an old block in its own slot", old_block_home),
    ("an old block in another slot", old_block_elsewhere),
    ("a live block all zeros", zero_block),
    ("a byte in a free slot", stray_byte),
    ("a child shared", share_child),
    ("a cycle of children", link_to_self_or_above),
    ("a child beyond the pool or free", link_outside),
    ("a wrong count", wrong_count),
    ("a wrong height", wrong_height),
    ("a byte after the used payload", stale_byte),
    ("a block's version", block_version),
    ("a record's version", record_version),
    ("a record's state", record_state),
    ("a part's record freed", free_part),
    ("versions at the end (sound)", worn_versions),
    ("slots exchanged (sound)", exchange_slots),
    ("a row that reads as bytes (sound)", row_reads_as_bytes),
    ("a forged head (sound)", forge_head),
    ("a store spoilt under a head", spoil_under_head),
];

pub fn in_block(slot: usize, at: usize, bytes: &[u8]) -> Step {
    Step::Patch { area: Area::Pool, at: slot * BLOCK + at, bytes: bytes.to_vec() }
}

pub fn in_record(slot: usize, at: usize, bytes: &[u8]) -> Step {
    Step::Patch { area: Area::Records, at: slot * RECORD + at, bytes: bytes.to_vec() }
}

pub fn link(slot: usize, index: usize, child: usize) -> Step {
    in_block(slot, PAYLOAD + 4 * index, &(child as u32).to_le_bytes())
}

fn flip_pool_bit(chance: &mut Chance, scene: &Scene) -> Option<Vec<Step>> {
    let slot = chance.pick_any(&scene.view.live())?;
    let at = if chance.one_in(2) { chance.place(PAYLOAD) } else { chance.place(BLOCK) };
    let flipped = scene.view.block(slot)[at] ^ (1 << chance.below(8));
    Some(vec![in_block(slot, at, &[flipped])])
}

fn flip_record_bit(chance: &mut Chance, scene: &Scene) -> Option<Vec<Step>> {
    let at = chance.place(scene.view.records.len());
    let flipped = scene.view.records[at] ^ (1 << chance.below(8));
    Some(vec![in_record(0, at, &[flipped])])
}

fn copy_block(chance: &mut Chance, scene: &Scene) -> Option<Vec<Step>> {
    let from = chance.pick_any(&scene.view.live())?;
    let to = chance.place(scene.view.slots());
    Some(vec![in_block(to, 0, scene.view.block(from))])
}

fn exchange_blocks(chance: &mut Chance, scene: &Scene) -> Option<Vec<Step>> {
    let live = scene.view.live();
    let (one, other) = (chance.pick_any(&live)?, chance.pick_any(&live)?);
    let (view, mut steps) = (scene.view, Vec::new());
    steps.push(in_block(one, 0, view.block(other)));
    steps.push(in_block(other, 0, view.block(one)));
    Some(steps)
}

fn old_block_home(chance: &mut Chance, scene: &Scene) -> Option<Vec<Step>> {
    let old = chance.pick_any(scene.past)?;
    Some(vec![in_block(old.slot, 0, &old.bytes)])
}

fn old_block_elsewhere(chance: &mut Chance, scene: &Scene) -> Option<Vec<Step>> {
    let old = chance.pick_any(scene.past)?;
    let to = chance.place(scene.view.slots());
    Some(vec![in_block(to, 0, &old.bytes)])
}

fn zero_block(chance: &mut Chance, scene: &Scene) -> Option<Vec<Step>> {
    let slot = chance.pick_any(&scene.view.live())?;
    Some(vec![in_block(slot, 0, &[0; BLOCK])])
}

fn stray_byte(chance: &mut Chance, scene: &Scene) -> Option<Vec<Step>> {
    let slot = chance.pick_any(&scene.view.free())?;
    let at = chance.pick(&[0, 2, 15, 16, 63, 40]);
    Some(vec![in_block(slot, at, &[1 + chance.below(255) as u8])])
}

/// A row that names a child of its own again, or one of another row.
fn share_child(chance: &mut Chance, scene: &Scene) -> Option<Vec<Step>> {
    let inner = scene.view.inner();
    let (one, other) = (chance.pick_any(&inner)?, chance.pick_any(&inner)?);
    let child = chance.pick_any(&scene.view.children(other))?;
    let index = chance.place(usize::from(scene.view.count(one)).min(12));
    Some(vec![link(one, index, child)])
}

fn link_to_self_or_above(chance: &mut Chance, scene: &Scene) -> Option<Vec<Step>> {
    let inner = scene.view.inner();
    let slot = chance.pick_any(&inner)?;
    let above = if chance.one_in(3) { slot } else { chance.pick_any(&inner)? };
    let index = chance.place(usize::from(scene.view.count(slot)).min(12));
    Some(vec![link(slot, index, above)])
}

fn link_outside(chance: &mut Chance, scene: &Scene) -> Option<Vec<Step>> {
    let slot = chance.pick_any(&scene.view.inner())?;
    let slots = scene.view.slots();
    let free = chance.pick_any(&scene.view.free()).unwrap_or(slots);
    let any = chance.place(slots);
    let far = chance.pick(&[slots + 1, 65_535, 65_536, u32::MAX as usize]);
    let child = chance.pick(&[slots, far, far, far, free, free, any]);
    let index = chance.place(usize::from(scene.view.count(slot)).min(12));
    Some(vec![link(slot, index, child)])
}

fn wrong_count(chance: &mut Chance, scene: &Scene) -> Option<Vec<Step>> {
    let slot = chance.pick_any(&scene.view.live())?;
    let now = scene.view.count(slot);
    let near = [now.wrapping_add(1), now.wrapping_sub(1)];
    let count = chance.pick(&[near[0], near[1], 0, 1, 2, 11, 12, 13, 48, 49, 255]);
    Some(vec![in_block(slot, 3, &[count])])
}

fn wrong_height(chance: &mut Chance, scene: &Scene) -> Option<Vec<Step>> {
    let slot = chance.pick_any(&scene.view.live())?;
    Some(vec![any_height(chance, slot)])
}

fn any_height(chance: &mut Chance, slot: usize) -> Step {
    in_block(slot, 2, &[chance.pick(&[0, 1, 2, 3, 4, 5, 6, 255])])
}

fn stale_byte(chance: &mut Chance, scene: &Scene) -> Option<Vec<Step>> {
    let slot = chance.pick_any(&scene.view.live())?;
    let count = usize::from(scene.view.count(slot));
    let used = if scene.view.height(slot) == 0 { count } else { 4 * count };
    if used >= 48 {
        return None;
    }
    let at = if chance.one_in(3) { 47 } else { used + chance.place(48 - used) };
    Some(vec![in_block(slot, PAYLOAD + at, &[1 + chance.below(255) as u8])])
}

/// A version next to this one, or at an end.
fn other_version(chance: &mut Chance, now: u64) -> [u8; 8] {
    let near = [now.wrapping_add(1), now.wrapping_sub(1)];
    let high = now ^ 1 << 32;
    chance.pick(&[near[0], near[1], high, 0, 1, u64::MAX, u64::MAX - 1]).to_le_bytes()
}

fn block_version(chance: &mut Chance, scene: &Scene) -> Option<Vec<Step>> {
    let slot = chance.pick_any(&scene.view.live())?;
    Some(vec![in_block(slot, 8, &other_version(chance, scene.view.version(slot)))])
}

fn record_version(chance: &mut Chance, scene: &Scene) -> Option<Vec<Step>> {
    let slot = chance.place(scene.view.slots());
    Some(vec![in_record(slot, 4, &other_version(chance, scene.view.version(slot)))])
}

fn record_state(chance: &mut Chance, scene: &Scene) -> Option<Vec<Step>> {
    let slot = chance.place(scene.view.slots());
    Some(vec![in_record(slot, 2, &[chance.pick(&[0, 1, 2, 3, 255])])])
}

/// The walk then meets a child that is free.
fn free_part(chance: &mut Chance, scene: &Scene) -> Option<Vec<Step>> {
    let view = scene.view;
    let slot = chance.pick_any(&view.slots_where(|slot| view.state(slot) == PART))?;
    Some(vec![in_record(slot, 2, &[FREE])])
}

/// Block and record of a slot at or next to the last version.
fn worn_versions(chance: &mut Chance, scene: &Scene) -> Option<Vec<Step>> {
    let kinds = [scene.view.live(), scene.view.free()];
    let slots = &kinds[chance.place(2)];
    let mut steps = Vec::new();
    for _ in 0..1 + chance.below(3) {
        let slot = chance.pick_any(slots)?;
        let version = (u64::MAX - chance.pick(&[0, 0, 1, 1, 2])).to_le_bytes();
        steps.push(in_record(slot, 4, &version));
        if scene.view.state(slot) != FREE {
            steps.push(in_block(slot, 8, &version));
        }
    }
    Some(steps)
}

fn exchange_slots(chance: &mut Chance, scene: &Scene) -> Option<Vec<Step>> {
    let slots = scene.view.slots();
    let mut exchange =
        || Step::ExchangeSlots { one: chance.place(slots), other: chance.place(slots) };
    Some(vec![exchange(), exchange(), exchange()])
}

/// A root of height 1 with the children x and 0, cut to the two bytes x and 0:
/// count and payload stay, only the height differs.
fn row_reads_as_bytes(chance: &mut Chance, scene: &Scene) -> Option<Vec<Step>> {
    let view = scene.view;
    let is_pair = |slot: usize| {
        let row = view.children(slot);
        view.state(slot) == ROOT && view.height(slot) == 1 && row.len() == 2 && row[0] < 256
    };
    let root = chance.pick_any(&view.slots_where(is_pair))?;
    let row = view.children(root);
    if root == 0 || row[0] == 0 || row[1] >= view.slots() {
        return None;
    }
    let cut = Call::Resize { root: root as u64, length: 2 };
    Some(vec![
        Step::ExchangeSlots { one: row[1], other: 0 },
        in_block(row[0], PAYLOAD, &[row[0] as u8, 0]),
        Step::Call(cut),
    ])
}

fn ask(chance: &mut Chance, scene: &Scene, head: &HeadNumbers) -> Step {
    Step::Call(Call::Next { size: draw_asking(chance, scene.view, head) })
}

/// A head that no opening made, and askings.
fn forge_head(chance: &mut Chance, scene: &Scene) -> Option<Vec<Step>> {
    let head = draw_head(chance, scene.view);
    let mut steps = vec![Step::ForgeHead(head)];
    steps.extend((0..3).map(|_| ask(chance, scene, &head)));
    Some(steps)
}

/// A head that is opened and asked before its root's height or some row
/// changes, and goes on after it.
fn spoil_under_head(chance: &mut Chance, scene: &Scene) -> Option<Vec<Step>> {
    let slot = chance.pick_any(&scene.view.roots())?;
    let ways: [Raid; 5] =
        [copy_block, zero_block, share_child, link_to_self_or_above, link_outside];
    let spoiling = match chance.one_in(2) {
        true => vec![any_height(chance, slot)],
        false => chance.pick(&ways)(chance, scene)?,
    };
    let root = slot as u64;
    let length = reference::length(scene.view.pool, scene.view.records, root).unwrap_or(0);
    let head = [root, 0, length, 1];
    let mut steps = vec![Step::Call(Call::OpenHead { root }), ask(chance, scene, &head)];
    steps.extend(spoiling);
    steps.extend((0..3).map(|_| ask(chance, scene, &head)));
    Some(steps)
}
