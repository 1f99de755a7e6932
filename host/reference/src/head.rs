//! The reading head of request W-201: "Add a head that keeps hold of the pool
//! it reads from and a place in the blob, and hands out the next bytes, as many
//! as asked or as remain."
//!
//! A head is four plain numbers here, and its pool is lent again at each
//! asking. It goes on where it stopped, and nothing is checked again: "However
//! the asking is cut up, the pieces joined are what one read gives."
//!
//! What is handed out is laid down for any numbers and any pool, so that
//! nothing is left open: a pool has as many slots as whole blocks, a block that
//! lies beyond them counts as zeros, and a leaf is found by its number alone,
//! whatever the counts say. On a blob that passed the blob check these are its
//! bytes.

use crate::bytes::{decode_block, Content, BLOCK_BYTES, FAN_OUT, LEAF_BYTES};
use crate::calls::length;
use crate::faults::{planted, Fault};
use crate::refusals::Refusal;
use crate::walk::HIGHEST_ROOT;

/// Root, place, length, and whether the head is open.
pub type Head = [u64; 4];

/// Where the place stands among the numbers.
const PLACE: usize = 1;
/// A head is open exactly if its fourth number is this.
const OPEN: u64 = 1;
/// What a refused head is left as.
const REFUSED: Head = [0; 4];

/// "Opening it does the blob check once, with the refusals of length". Answers
/// the blob's length; the head stands at its start.
pub fn open_head(pool: &[u8], records: &[u8], root: u64, head: &mut Head) -> Result<u64, Refusal> {
    *head = REFUSED;
    let length = length(pool, records, root)?;
    *head = [root, 0, length, OPEN];
    Ok(length)
}

/// "hands out the next bytes, as many as asked or as remain"; "a refused head
/// hands out nothing." Answers how many were handed out. They are the first of
/// the output, the rest of it stays; the place rises by as many.
pub fn next(pool: &[u8], head: &mut Head, out: &mut [u8]) -> u64 {
    let [root, place, length, open] = *head;
    if open != OPEN {
        return 0;
    }
    let count = remaining(place, length).min(out.len() as u64) as usize;
    let mut done = 0;
    while done < count {
        let at = place + done as u64;
        let from = (at % LEAF_BYTES as u64) as usize;
        let size = (LEAF_BYTES - from).min(count - done);
        let leaf = content_in(pool, leaf_slot(pool, root, at / LEAF_BYTES as u64));
        out[done..done + size].copy_from_slice(&leaf.payload[from..from + size]);
        done += size;
    }
    head[PLACE] = place_after(place, count as u64);
    count as u64
}

/// How many bytes remain, none where the place is not below the length.
fn remaining(place: u64, length: u64) -> u64 {
    let end = if planted(Fault::HeadPastTheEnd) { length.saturating_add(1) } else { length };
    end.saturating_sub(place)
}

/// Where the head stands after so many bytes.
fn place_after(place: u64, count: u64) -> u64 {
    if planted(Fault::HeadStartsOver) {
        return place;
    }
    let skipped = u64::from(count > 0 && planted(Fault::HeadSkipsAByte));
    (place + count).saturating_add(skipped)
}

/// The slot of this leaf: as many heights below the root as the root's block
/// says, at most 5.
fn leaf_slot(pool: &[u8], root: u64, leaf: u64) -> u64 {
    let most = if planted(Fault::HeadOfHeight3) { 3 } else { HIGHEST_ROOT };
    let height = content_in(pool, root).height.min(most);
    slot_below(pool, root, height, leaf)
}

/// The slot of the block with this number, counted from the left, so many
/// heights below the root.
fn slot_below(pool: &[u8], root: u64, heights: u8, number: u64) -> u64 {
    if heights == 0 {
        return root;
    }
    let fan_out = FAN_OUT as u64;
    let parent = slot_below(pool, root, heights - 1, number / fan_out);
    u64::from(content_in(pool, parent).child((number % fan_out) as usize))
}

/// What the block in this slot says of itself, zeros where there is no such
/// slot.
fn content_in(pool: &[u8], slot: u64) -> Content {
    let slots = pool.len() / BLOCK_BYTES;
    if slot < slots as u64 {
        decode_block(pool, slot as usize).content
    } else {
        Content::empty(0)
    }
}
