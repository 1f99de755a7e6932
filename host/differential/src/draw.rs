//! Draws the next call: mostly a sensible one, now and then one with arguments
//! at or far beyond the edge.

use crate::call::Call;
use crate::chance::Chance;
use crate::layout::{blocks_of, View};
use tjornsaki::raw::HeadNumbers;

/// How likely each kind of call is, in the order of `KINDS`.
const WEIGHTS: [u64; 12] = [1, 24, 18, 30, 50, 70, 16, 20, 14, 10, 32, 20];

/// Leaf counts about which the shape of a blob changes, and the most that 1,024
/// and 65,536 slots have room for.
const LEAF_EDGES: [u64; 24] = [
    1, 2, 3, 11, 12, 13, 24, 132, 143, 144, 145, 156, 157, 288, 936, 937, 1_727, 1_728, 1_729,
    1_740, 20_736, 20_737, 60_071, 60_072,
];

/// A pool of more slots is a large one.
pub const SMALL: usize = 1_024;
/// The most slots of a pool.
pub const MOST_SLOTS: usize = 65_536;

/// How many slots the pool of a run has: 1 to 1,024, mostly few. For larger ones
/// see `draw_large_slots`.
pub fn draw_slots(chance: &mut Chance) -> usize {
    match chance.weighted(&[20, 45, 25, 7, 3]) {
        0 => 1 + chance.place(4),
        1 => 5 + chance.place(28),
        2 => 33 + chance.place(168),
        3 => 201 + chance.place(824),
        _ => 1_024,
    }
}

/// How many slots a large pool has: 1,025 to 65,536, now and then the most, and
/// otherwise as often up to about 2,048 as beyond, as time goes with slots.
pub fn draw_large_slots(chance: &mut Chance) -> usize {
    let spread = 1 << (4 + chance.below(13));
    match chance.one_in(10) {
        true => MOST_SLOTS,
        false => (SMALL + 1 + chance.place(spread)).min(MOST_SLOTS),
    }
}

pub fn draw_call(chance: &mut Chance, view: View, head: &HeadNumbers) -> Call {
    let root = draw_root(chance, view);
    if view.roots().is_empty() && chance.one_in(2) {
        return Call::Create;
    }
    match chance.weighted(&WEIGHTS) {
        0 => Call::Wipe,
        1 => Call::Create,
        2 => Call::Length { root },
        3 => {
            let (offset, size) = draw_range(chance, length_now(view, root));
            Call::Read { root, offset, size }
        }
        4 => {
            let (offset, size) = draw_range(chance, length_now(view, root));
            Call::Write { root, offset, size, fill: draw_fill(chance) }
        }
        5 => Call::Resize { root, length: draw_length(chance, view, root) },
        6 => Call::Delete { root },
        7 => Call::Show { root, leaf: draw_leaf(chance, length_now(view, root)) },
        8 => Call::Audit,
        9 => Call::OpenHead { root },
        10 if has_more(head) || chance.one_in(4) => {
            Call::Next { size: draw_asking(chance, view, head) }
        }
        10 => Call::OpenHead { root },
        _ => Call::Scan { root, size: draw_piece(chance, view, length_now(view, root)) },
    }
}

fn draw_root(chance: &mut Chance, view: View) -> u64 {
    let slots = view.slots() as u64;
    match (chance.below(24), chance.pick_any(&view.roots())) {
        (0, _) => chance.below(slots),
        (1, _) => slots + chance.below(2),
        (2, Some(root)) => root as u64 + chance.pick(&[1 << 32, 1 << 63, slots]),
        (3, _) => [u64::MAX, u64::MAX - 1, chance.number()][chance.place(3)],
        (_, Some(root)) => root as u64,
        (_, None) => chance.below(slots + 1),
    }
}

/// The blob's length now, or 0 where there is none to be had.
fn length_now(view: View, root: u64) -> u64 {
    reference::length(view.pool, view.records, root).unwrap_or(0)
}

/// Offset and size of a read or a write.
fn draw_range(chance: &mut Chance, length: u64) -> (u64, usize) {
    let offset = chance.below(length + 1);
    let left = length - offset;
    match chance.below(20) {
        0..=9 => (offset, chance.below(left.min(200) + 1) as usize),
        10..=12 => (offset, chance.below(left + 1) as usize),
        13 | 14 => (0, length as usize),
        15 => (length + chance.below(2), 0),
        16 => (offset, left as usize + 1),
        17 => (u64::MAX - chance.below(3), chance.place(5)),
        18 => (chance.number(), chance.place(100)),
        _ => (offset, 0),
    }
}

/// Few bytes over and over, so that writes often change nothing.
fn draw_fill(chance: &mut Chance) -> u64 {
    match chance.below(6) {
        0 => 0,
        1 => 1,
        2 => 0xFF,
        _ => 256 + chance.below(1 << 20),
    }
}

fn draw_length(chance: &mut Chance, view: View, root: u64) -> u64 {
    let now = length_now(view, root);
    match chance.below(20) {
        0..=2 => chance.below(120),
        3..=6 => (now + chance.below(110)).saturating_sub(55),
        7..=11 => (48 * draw_edge(chance, view) + chance.below(3)).saturating_sub(1),
        12..=14 => chance.below(30 * view.slots() as u64 + 100),
        15 => now / 2,
        16 => 0,
        17 | 18 => most_that_fits(view, now) + chance.below(2),
        _ => chance.pick(&LENGTHS),
    }
}

/// Lengths that no pool has room for, and about the most that 1,024 and 65,536
/// slots have room for.
const LENGTHS: [u64; 8] =
    [u64::MAX, u64::MAX - 47, 1 << 63, 1 << 32, 44_976, 44_977, 2_883_456, 2_883_457];

/// A leaf count at an edge that the pool has room for, as a rule.
fn draw_edge(chance: &mut Chance, view: View) -> u64 {
    let most = view.slots() as u64;
    let fitting = LEAF_EDGES.iter().take_while(|leaves| **leaves < most).count();
    chance.pick(&LEAF_EDGES[..(fitting + 1).min(LEAF_EDGES.len())])
}

/// The greatest length for which the blob's blocks and the free slots do.
fn most_that_fits(view: View, now: u64) -> u64 {
    let blocks = blocks_of(now) + view.free().len() as u64;
    let (mut fits, mut beyond) = (0, MOST_SLOTS as u64 + 1);
    while beyond - fits > 1 {
        let middle = (fits + beyond) / 2;
        if blocks_of(48 * middle) <= blocks {
            fits = middle;
        } else {
            beyond = middle;
        }
    }
    48 * fits
}

fn draw_leaf(chance: &mut Chance, length: u64) -> u64 {
    let leaves = (length / 48 + u64::from(length % 48 != 0)).max(1);
    match chance.below(12) {
        0 => leaves,
        1 => leaves - 1,
        2 => chance.pick(&[u64::MAX, 1 << 32, leaves + 1]),
        _ => chance.below(leaves),
    }
}

/// Whether the head has bytes to hand out.
fn has_more(head: &HeadNumbers) -> bool {
    head[3] == 1 && head[1] < head[2]
}

/// About so many bytes are asked for at most, where a head has more: twice what
/// the pool has room for, and not few.
fn far(view: View) -> u64 {
    (2 * 48 * view.slots() as u64).max(100_000)
}

/// How many bytes a head is asked for: nothing, a byte, a leaf, a row, what
/// remains and about it, and far more.
pub fn draw_asking(chance: &mut Chance, view: View, head: &HeadNumbers) -> usize {
    let [_, place, length, _] = *head;
    let rest = length.saturating_sub(place).min(far(view));
    let size = match chance.below(20) {
        0 => 0,
        1 => 1,
        2 => 48,
        3 => 48 - place % 48,
        4 => 576,
        5 => 6_912,
        6 => rest,
        7 => rest.saturating_sub(1),
        8 => rest + 1 + chance.below(100),
        9 => far(view),
        10..=12 => chance.below(rest + 1),
        _ => chance.below(rest.min(200) + 1),
    };
    size as usize
}

/// The piece of a scan, not so small that it takes thousands of them.
fn draw_piece(chance: &mut Chance, view: View, length: u64) -> usize {
    let size = match chance.below(12) {
        0 => length,
        1 => length + 1,
        2 => far(view),
        3..=7 => chance.below(200),
        _ => chance.pick(&[1, 7, 47, 48, 49, 96, 575, 576, 577, 6_912, 6_913]),
    };
    size.max(length / 500).max(1) as usize
}

/// Numbers at which a place or a length may go wrong.
const EDGES: [u64; 16] = [
    0,
    1,
    47,
    48,
    576,
    577,
    6_912,
    6_913,
    82_944,
    82_945,
    995_328,
    995_329,
    1 << 32,
    u64::MAX - 48,
    u64::MAX - 1,
    u64::MAX,
];

/// Numbers for a head that no opening made.
pub fn draw_head(chance: &mut Chance, view: View) -> HeadNumbers {
    let slots = view.slots() as u64;
    let root = match chance.below(4) {
        0 => chance.below(slots),
        1 => chance.pick(&[slots, slots + 1, 1 << 32, u64::MAX]),
        _ => draw_root(chance, view),
    };
    let length = match chance.below(4) {
        0 => length_now(view, root),
        1 => chance.below(10_000 + 48 * slots),
        2 => chance.number(),
        _ => chance.pick(&EDGES),
    };
    let place = match chance.below(5) {
        0 => 0,
        1 => chance.below(length),
        2 => length.saturating_sub(chance.below(600)),
        3 => chance.number(),
        _ => chance.pick(&EDGES),
    };
    let open = chance.pick(&[1, 1, 1, 1, 1, 1, 1, 1, 0, 2, u64::MAX, (1 << 32) + 1]);
    [root, place, length, open]
}
