//! The nine calls. Each makes its checks in the paper's order: "1; 2; 3 where
//! a root is named; the blob check (length, read, show) or the pool check
//! (create, write, resize, delete, audit); 12; 10; 11." A refusal comes before
//! the first byte is written.

use crate::bytes::{decode_block, decode_record, encode_record, Content, Record, State};
use crate::bytes::{
    BLOCK_BYTES, LEAF_BYTES, MOST_SLOTS, PAYLOAD_START, RECORD_BYTES, WORN_VERSION,
};
use crate::cells::{decode_cells, take, usable_slots, write_out};
use crate::faults::{planted, Fault};
use crate::refusals::{No, Refusal};
use crate::resize::{lengthen, shorten};
use crate::shape::{block_total, leaf_count, leaf_share};
use crate::walk::{blob_check, pool_check, Blob};

/// "Wipe: pool all zeros; each record free, version 0." "Wipe checks 1 only."
pub fn wipe(pool: &mut [u8], records: &mut [u8]) -> Result<(), Refusal> {
    let slots = check_lengths(pool, records)?;
    pool.fill(0);
    for slot in 0..slots {
        encode_record(records, slot, Record { state: State::Free, version: 0 });
    }
    Ok(())
}

/// "Create: the lowest usable free slot becomes an empty leaf and a root.
/// Returns its slot."
pub fn create(pool: &mut [u8], records: &mut [u8]) -> Result<u64, Refusal> {
    let decoded = check_records(pool, records)?;
    pool_check(pool, &decoded)?;
    let before = decode_cells(pool, &decoded);
    let mut after = before.clone();
    let slot = usable_slots(&before).next().ok_or(No::Full.plain())?;
    take(&mut after, slot, State::Root, Content::empty(0));
    write_out(&before, &after, pool, records);
    Ok(slot as u64)
}

/// "Length returns L."
pub fn length(pool: &[u8], records: &[u8], root: u64) -> Result<u64, Refusal> {
    Ok(checked_blob(pool, records, root)?.length)
}

/// "Read fills the whole lent output from the offset; size 0 at offset L is
/// allowed."
pub fn read(
    pool: &[u8],
    records: &[u8],
    root: u64,
    offset: u64,
    out: &mut [u8],
) -> Result<(), Refusal> {
    if planted(Fault::RangeBeforeBlob) {
        claimed_range(pool, records, root, offset, out.len())?;
    }
    let blob = checked_blob(pool, records, root)?;
    check_range(blob.length, offset, out.len())?;
    for touch in touched_leaves(&blob, offset, out.len()) {
        let start = touch.slot * BLOCK_BYTES + PAYLOAD_START + touch.from;
        out[touch.done..touch.done + touch.size].copy_from_slice(&pool[start..start + touch.size]);
    }
    Ok(())
}

/// "Write puts bytes inside the present length." "It never lengthens."
pub fn write(
    pool: &mut [u8],
    records: &mut [u8],
    root: u64,
    offset: u64,
    data: &[u8],
) -> Result<(), Refusal> {
    let (decoded, blob) = checked_pool_and_blob(pool, records, root)?;
    check_not_worn(&decoded, &blob)?;
    check_range(blob.length, offset, data.len())?;
    let before = decode_cells(pool, &decoded);
    let mut after = before.clone();
    for touch in touched_leaves(&blob, offset, data.len()) {
        after[touch.slot].content.payload[touch.from..touch.from + touch.size]
            .copy_from_slice(&data[touch.done..touch.done + touch.size]);
    }
    write_out(&before, &after, pool, records);
    Ok(())
}

/// Longer or shorter, see `resize.rs`. "more new blocks needed than usable
/// free slots" is 11; the need is the difference of the block totals (reading
/// 10), so a shorter length is "Never refused with 11."
pub fn resize(pool: &mut [u8], records: &mut [u8], root: u64, length: u64) -> Result<(), Refusal> {
    let (decoded, blob) = checked_pool_and_blob(pool, records, root)?;
    check_not_worn(&decoded, &blob)?;
    let before = decode_cells(pool, &decoded);
    let total_before = block_total(leaf_count(blob.length));
    let needed = block_total(leaf_count(length)).saturating_sub(total_before);
    let usable: Vec<usize> = usable_slots(&before).collect();
    if needed > usable.len() as u64 {
        return Err(No::Full.plain());
    }
    let mut after = before.clone();
    if length >= blob.length {
        lengthen(&mut after, usable, blob.root, (blob.length, length))?;
    } else {
        shorten(&mut after, blob.root, blob.length, length);
    }
    write_out(&before, &after, pool, records);
    Ok(())
}

/// "Delete: every block of the blob goes. A worn blob may be deleted."
pub fn delete(pool: &mut [u8], records: &mut [u8], root: u64) -> Result<(), Refusal> {
    let (decoded, blob) = checked_pool_and_blob(pool, records, root)?;
    let before = decode_cells(pool, &decoded);
    let mut after = before.clone();
    for slot in blob.blocks {
        after[slot].goes();
    }
    write_out(&before, &after, pool, records);
    Ok(())
}

/// "Show a leaf: its data bytes as they lie in the pool, not a copy." Answers
/// where they start in the pool and how many they are.
pub fn show(pool: &[u8], records: &[u8], root: u64, leaf: u64) -> Result<(usize, usize), Refusal> {
    let blob = checked_blob(pool, records, root)?;
    // "the leaf number is not below n": 10. Leaves count from 0 (reading 19).
    if leaf >= leaf_count(blob.length) {
        return Err(No::OutOfRange.plain());
    }
    let start = blob.leaves[leaf as usize] * BLOCK_BYTES + PAYLOAD_START;
    Ok((start, usize::from(leaf_share(blob.length, leaf))))
}

/// "Audit returns the count of live slots."
pub fn audit(pool: &[u8], records: &[u8]) -> Result<u64, Refusal> {
    let decoded = check_records(pool, records)?;
    pool_check(pool, &decoded)?;
    let live = decoded.iter().filter(|record| record.state.is_live());
    Ok(live.count() as u64)
}

/// Refusals 1, 2, 3 and the blob check.
fn checked_blob(pool: &[u8], records: &[u8], root: u64) -> Result<Blob, Refusal> {
    let decoded = check_records(pool, records)?;
    let root = check_root(&decoded, root)?;
    blob_check(pool, &decoded, root)
}

/// Refusals 1, 2, 3 and the pool check; hands back the named root's blob.
fn checked_pool_and_blob(
    pool: &[u8],
    records: &[u8],
    root: u64,
) -> Result<(Vec<Record>, Blob), Refusal> {
    let decoded = check_records(pool, records)?;
    let root = check_root(&decoded, root)?;
    let blobs = pool_check(pool, &decoded)?;
    let named = blobs.into_iter().find(|blob| blob.root == root);
    Ok((decoded, named.ok_or(No::NotARoot.plain())?))
}

/// 1: "pool length is not 64 N with N from 1 to 65,536, or records length is
/// not 12 N". Answers N.
fn check_lengths(pool: &[u8], records: &[u8]) -> Result<usize, Refusal> {
    let slots = pool.len() / BLOCK_BYTES;
    let pool_fits = pool.len() % BLOCK_BYTES == 0 && (1..=most_slots()).contains(&slots);
    if pool_fits && records.len() == slots * RECORD_BYTES {
        Ok(slots)
    } else {
        Err(No::WrongLengths.plain())
    }
}

/// The most slots, but for planted bugs.
fn most_slots() -> usize {
    let less = usize::from(planted(Fault::OneSlotLess));
    MOST_SLOTS - less + usize::from(planted(Fault::OneSlotMore))
}

/// 1, then 2: "a record breaks its layout; names the lowest such slot".
fn check_records(pool: &[u8], records: &[u8]) -> Result<Vec<Record>, Refusal> {
    let mut decoded = Vec::with_capacity(check_lengths(pool, records)?);
    for (slot, bytes) in records.chunks_exact(RECORD_BYTES).enumerate() {
        decoded.push(decode_record(bytes).ok_or(No::BrokenRecord.naming(slot))?);
    }
    Ok(decoded)
}

/// 3: "the named root is not below N, or its record is not a root". The number
/// is compared whole (reading 7).
fn check_root(records: &[Record], root: u64) -> Result<usize, Refusal> {
    if root < records.len() as u64 && records[root as usize].state == State::Root {
        Ok(root as usize)
    } else {
        Err(No::NotARoot.plain())
    }
}

/// 12: "write or resize on a blob that has a block at version 2^64 - 1".
fn check_not_worn(records: &[Record], blob: &Blob) -> Result<(), Refusal> {
    let is_worn = |slot: &usize| records[*slot].version == WORN_VERSION;
    if blob.blocks.iter().any(is_worn) && !planted(Fault::WornBlobChanged) {
        return Err(No::Worn.plain());
    }
    Ok(())
}

/// 10: "offset plus size exceeds the length", "no wrapped sum".
fn check_range(length: u64, offset: u64, size: usize) -> Result<(), Refusal> {
    let free_of_charge = size == 0 && planted(Fault::NoBytesAnywhere);
    if u128::from(offset) + size as u128 > u128::from(length) && !free_of_charge {
        return Err(No::OutOfRange.plain());
    }
    Ok(())
}

/// For the planted bug only: the range by the count that a lone leaf claims.
fn claimed_range(
    pool: &[u8],
    records: &[u8],
    root: u64,
    offset: u64,
    size: usize,
) -> Result<(), Refusal> {
    let root = check_root(&check_records(pool, records)?, root)?;
    let claimed = decode_block(pool, root).content;
    if claimed.is_leaf() {
        check_range(u64::from(claimed.count), offset, size)?;
    }
    Ok(())
}

/// The touched stretch of one leaf.
struct Touch {
    slot: usize,
    /// Where the stretch starts in the leaf's payload.
    from: usize,
    size: usize,
    /// How many bytes of the call lie in leaves before this one.
    done: usize,
}

/// The stretches that a range inside the length touches, left to right.
fn touched_leaves(blob: &Blob, offset: u64, size: usize) -> Vec<Touch> {
    let mut touches = Vec::new();
    let mut done = 0;
    while done < size {
        let at = offset as usize + done;
        let from = at % LEAF_BYTES;
        let stretch = (LEAF_BYTES - from).min(size - done);
        touches.push(Touch { slot: blob.leaves[at / LEAF_BYTES], from, size: stretch, done });
        done += stretch;
    }
    touches
}
