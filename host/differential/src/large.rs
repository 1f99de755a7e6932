//! Large pools, always played: blobs about the heights 4 and 5 and the largest
//! one, the lengths about which refusal 1 changes, and heads over them. What is
//! drawn by chance seldom meets these.

use crate::bench::Step;
use crate::call::Call;
use crate::draw::MOST_SLOTS;
use crate::hostile::{in_block, link};
use crate::layout::{blocks_of, BLOCK, LEAF, RECORD};
use crate::run::Finding;
use crate::spoilt::try_spoilt;
use crate::tally::Tally;
use crate::told::Told;

type Scene = fn(&mut Tally) -> Result<(), Finding>;

/// All scenes, by name.
pub const SCENES: [(&str, Scene); 8] = [
    ("lengths of pools", lengths_of_pools),
    ("a blob of 1,728 leaves", |tally| blob_of(1_728, tally)),
    ("a blob of 1,729 leaves", |tally| blob_of(1_729, tally)),
    ("a blob of 20,736 leaves", |tally| blob_of(20_736, tally)),
    ("a blob of 20,737 leaves", |tally| blob_of(20_737, tally)),
    ("a blob of 60,072 leaves", |tally| blob_of(60_072, tally)),
    ("from height to height", from_height_to_height),
    ("heads", heads),
];

/// Most leaves that a pool has room for.
const MOST_LEAVES: u64 = 60_072;

/// The length of a blob of so many leaves, all of them full.
fn full(leaves: u64) -> u64 {
    LEAF as u64 * leaves
}

/// The blob of a scene is in slot 0.
fn resize(length: u64) -> Step {
    Step::Call(Call::Resize { root: 0, length })
}

fn write(offset: u64, size: usize) -> Step {
    Step::Call(Call::Write { root: 0, offset, size, fill: 256 + offset })
}

/// A wiped store of so many slots with a blob of this length.
fn with_blob(slots: usize, length: u64, tally: &mut Tally) -> Result<Told<'_>, Finding> {
    let mut told = Told::new(slots, tally);
    told.done(Step::Call(Call::Wipe))?;
    told.gives(Call::Create, 0)?;
    told.done(resize(length))?;
    told.gives(Call::Audit, blocks_of(length))?;
    Ok(told)
}

/// Every call with a root, but for askings of a head, and those without one.
fn every_call() -> [Call; 11] {
    let root = 0;
    [
        Call::Wipe,
        Call::Create,
        Call::Length { root },
        Call::Read { root, offset: 0, size: 1 },
        Call::Write { root, offset: 0, size: 1, fill: 5 },
        Call::Resize { root, length: 1 },
        Call::Delete { root },
        Call::Show { root, leaf: 0 },
        Call::Audit,
        Call::OpenHead { root },
        Call::Scan { root, size: 100 },
    ]
}

/// "For refusal 1 a pool of 65,600 bytes is now good and 4,194,368 is the first
/// too long."
fn lengths_of_pools(tally: &mut Tally) -> Result<(), Finding> {
    let over = |call, pool, records| Step::CallOverLengths { call, pool, records };
    for slots in [1_025, MOST_SLOTS] {
        let (pool, records) = (slots * BLOCK, slots * RECORD);
        let mut told = with_blob(slots, 49, tally)?;
        for call in [Call::Audit, Call::Length { root: 0 }] {
            told.done(over(call, pool, records))?;
            told.refused(over(call, pool, records - RECORD), 1, None)?;
            told.refused(over(call, pool, records + RECORD), 1, None)?;
            told.refused(over(call, pool + 1, records), 1, None)?;
        }
    }
    let mut told = Told::new(MOST_SLOTS + 1, tally);
    for call in every_call() {
        told.refused(Step::Call(call), 1, None)?;
    }
    told.done(over(Call::Wipe, 4_194_304, 786_432))?;
    told.done(over(Call::Wipe, 65_600, 12_300))?;
    Ok(())
}

/// A blob of so many leaves, made, changed, looked at, made longer and shorter,
/// spoilt in many ways and deleted.
fn blob_of(leaves: u64, tally: &mut Tally) -> Result<(), Finding> {
    let slots = MOST_SLOTS.min(blocks_of(full(leaves)) as usize + 6);
    let mut told = with_blob(slots, full(leaves), tally)?;
    let old = told.view().pool.to_vec();
    look_and_change(&mut told, leaves)?;
    longer_and_shorter(&mut told, leaves)?;
    if leaves == MOST_LEAVES {
        the_last_slot(&mut told)?;
    }
    try_spoilt(&mut told, &old)?;
    told.done(Step::Call(Call::Delete { root: 0 }))?;
    told.gives(Call::Audit, 0)
}

fn look_and_change(told: &mut Told, leaves: u64) -> Result<(), Finding> {
    let (root, length) = (0, full(leaves));
    told.done(write(0, 100))?;
    told.done(write(length / 2, 30_000))?;
    told.done(write(length - 1, 1))?;
    told.refused(write(length - 1, 2), 10, None)?;
    told.gives(Call::Length { root }, length)?;
    told.done(Step::Call(Call::Read { root, offset: 0, size: length as usize }))?;
    told.refused(Step::Call(Call::Read { root, offset: length, size: 1 }), 10, None)?;
    told.gives(Call::Scan { root, size: length as usize / 7 }, length)?;
    told.done(Step::Call(Call::Show { root, leaf: leaves - 1 }))?;
    told.refused(Step::Call(Call::Show { root, leaf: leaves }), 10, None)
}

/// A leaf more, if there is room, and a leaf less.
fn longer_and_shorter(told: &mut Told, leaves: u64) -> Result<(), Finding> {
    let longer = full(leaves) + 1;
    match leaves {
        MOST_LEAVES => told.refused(resize(longer), 11, None)?,
        _ => {
            told.done(resize(longer))?;
            told.gives(Call::Audit, blocks_of(longer))?;
        }
    }
    for length in [full(leaves - 1), full(leaves - 2) + 1, full(leaves)] {
        told.done(resize(length))?;
        told.done(write(length - 60, 60))?;
    }
    told.gives(Call::Audit, blocks_of(full(leaves)))
}

/// The one slot that the largest blob leaves free is the last one. It becomes a
/// root, and then a part of the blob.
fn the_last_slot(told: &mut Told) -> Result<(), Finding> {
    let (last, most) = (MOST_SLOTS as u64 - 1, MOST_SLOTS as u64);
    told.gives(Call::Create, last)?;
    told.gives(Call::Audit, most)?;
    told.refused(Step::Call(Call::Create), 11, None)?;
    told.done(Step::Call(Call::Resize { root: last, length: 48 }))?;
    told.refused(Step::Call(Call::Resize { root: last, length: 49 }), 11, None)?;
    told.done(Step::Call(Call::Write { root: last, offset: 0, size: 48, fill: 999 }))?;
    told.gives(Call::Scan { root: last, size: 48 }, 48)?;
    told.refused(Step::Call(Call::Length { root: most }), 3, None)?;
    told.done(Step::Call(Call::Delete { root: last }))?;
    told.step(Step::Keep)?;
    for other in [60_000, 2] {
        told.step(Step::ExchangeSlots { one: last as usize, other })?;
        told.gives(Call::Audit, last)?;
        told.done(write(100, 3_000))?;
    }
    told.step(Step::GoBack)?;
    Ok(())
}

/// Leaf counts of all heights, so that every height leads to 4 and to 5, and
/// these to every height.
const WAY: [u64; 22] = [
    1, 1_729, 1, 20_737, 12, 1_729, 12, 20_737, 144, 1_729, 144, 20_737, 1_728, 1_729, 1_728,
    20_737, 20_736, 1_729, 20_736, 20_737, 20_738, 1,
];

fn from_height_to_height(tally: &mut Tally) -> Result<(), Finding> {
    let slots = blocks_of(full(20_738)) as usize;
    let mut told = with_blob(slots, 0, tally)?;
    for (index, leaves) in WAY.into_iter().enumerate() {
        let length = full(leaves) - index as u64;
        told.done(resize(length))?;
        told.done(write(length.saturating_sub(7_000), length.min(7_000) as usize))?;
        told.gives(Call::Audit, blocks_of(length))?;
    }
    told.refused(resize(full(20_739) + 1), 11, None)
}

/// Heads on a blob of height 5 about the first leaves of its rows: as it is,
/// with another height in its root, with rows that name slots far off, and over
/// pools of other lengths.
fn heads(tally: &mut Tally) -> Result<(), Finding> {
    let length = full(20_737);
    let mut told = with_blob(blocks_of(length) as usize, length, tally)?;
    told.done(write(0, length as usize))?;
    told.gives(Call::OpenHead { root: 0 }, length)?;
    ask_about_rows(&mut told, length)?;
    let row = told.view().children(0);
    for height in [3, 4, 6, 255] {
        told.step(in_block(0, 2, &[height]))?;
        ask_about_rows(&mut told, length)?;
    }
    told.step(in_block(0, 2, &[5]))?;
    for slot in [MOST_SLOTS - 1, MOST_SLOTS, u32::MAX as usize] {
        told.step(link(0, 0, slot))?;
        told.step(link(row[1], 0, slot))?;
        ask_about_rows(&mut told, length)?;
    }
    told.step(link(0, 0, row[0]))?;
    for pool in [65_600, 4_194_304, 4_194_368] {
        told.step(Step::ForgeHead([0, full(1_700), length, 1]))?;
        let call = Call::Next { size: 5_000 };
        told.step(Step::CallOverLengths { call, pool, records: 0 })?;
    }
    Ok(())
}

/// Askings across the first leaf after each power of twelve, and the end.
fn ask_about_rows(told: &mut Told, length: u64) -> Result<(), Finding> {
    for leaves in [0, 12, 144, 1_728, 2 * 1_728, 20_736, 20_737] {
        let place = full(leaves).saturating_sub(70);
        told.step(Step::ForgeHead([0, place, length, 1]))?;
        told.done(Step::Call(Call::Next { size: 100 }))?;
        told.done(Step::Call(Call::Next { size: 1_000 }))?;
    }
    Ok(())
}
