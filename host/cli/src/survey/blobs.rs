//! Which blobs read. To ask the library about each takes a look at every record
//! for every blob. So it is asked about all of them at once where that can be.

use super::{Blob, Found};
use crate::layout::{length, records, roots};
use tjornsaki::{Refusal, BLOCK_BYTES, RECORD_BYTES};

/// A free record at version 0.
const FREE: [u8; RECORD_BYTES] = [0x52, 0x31, 0, 0, 0, 0, 0, 0, 0, 0, 0, 0];

/// In a sound store every blob reads, and with a broken record none does. In
/// another, a blob in which the walk finds a fault is refused for the first one;
/// for the others the library audits a copy of the store that holds them alone.
/// Where that is refused, since two of them share a block, it is asked about each.
pub fn all(
    pool: &[u8],
    record_bytes: &[u8],
    audit: Result<u64, Refusal>,
    found: &Found,
) -> Vec<Blob> {
    let records = records(record_bytes);
    let asked = |root: u64| tjornsaki::length(pool, record_bytes, root);
    let reads = |root: u64| length(pool, root as usize).map_or_else(|| asked(root), Ok);
    let blob = |root, length| Blob { root, length };
    let roots = roots(&records).into_iter();
    match audit {
        Ok(_) => roots.map(|root| blob(root, reads(root))).collect(),
        Err(no) if no.number == 2 => roots.map(|root| blob(root, Err(no))).collect(),
        Err(_) if audited_alone(pool, record_bytes, &found.clean) => {
            let verdict = |(root, first): (u64, &Option<Refusal>)| {
                blob(root, first.map_or_else(|| reads(root), Err))
            };
            roots.zip(&found.firsts).map(verdict).collect()
        }
        Err(_) => roots.map(|root| blob(root, asked(root))).collect(),
    }
}

/// Whether the library passes a copy in which all other slots are free.
fn audited_alone(pool: &[u8], record_bytes: &[u8], kept: &[bool]) -> bool {
    let (mut pool, mut record_bytes) = (pool.to_vec(), record_bytes.to_vec());
    for slot in (0..kept.len()).filter(|slot| !kept[*slot]) {
        pool[slot * BLOCK_BYTES..][..BLOCK_BYTES].fill(0);
        record_bytes[slot * RECORD_BYTES..][..RECORD_BYTES].copy_from_slice(&FREE);
    }
    tjornsaki::audit(&pool, &record_bytes).is_ok()
}
