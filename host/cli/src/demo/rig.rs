//! The rig's two weeks with a store of eight slots.

use super::desk::Store;
use crate::layout::{block, records};
use tjornsaki::{Refusal, BLOCK_BYTES};

/// The slot of the list's root.
pub const LIST: u64 = 0;
/// The slot of the withdrawn list.
pub const WITHDRAWN: u64 = 4;

const SLOTS: usize = 8;
const RECORDS: &str = "nights.records";

/// A line of 48 bytes, as much as a leaf holds.
fn line(signature: &str, what: &str, verdict: &str) -> String {
    format!("{signature:4}  {what:24} {verdict:16}\n")
}

/// The store after one week, and after two.
pub struct Rig {
    pub last_week: Store,
    pub now: Store,
}

impl Rig {
    pub fn new() -> Result<Rig, Refusal> {
        let (pool, records) = tjornsaki::room(SLOTS);
        let mut weeks = Weeks { pool, records };
        tjornsaki::wipe(&mut weeks.pool, &mut weeks.records)?;
        weeks.first()?;
        let pool = ("last-week.pool".to_string(), weeks.pool.clone());
        let last_week = Store { pool, records: ("last-week.records", weeks.records.clone()) };
        weeks.second()?;
        let pool = (pool_of_night(0), weeks.pool);
        Ok(Rig { last_week, now: Store { pool, records: (RECORDS, weeks.records) } })
    }

    /// The versions of a slot's record and of last week's block.
    pub fn versions(&self, slot: usize) -> String {
        let kept = records(&self.now.records.1)[slot].version;
        let handed = block(&self.last_week.pool.1, slot).map_or(0, |block| block.version());
        format!("By the records slot {slot} is at version {kept}, not {handed}.")
    }

    /// What the carrier hands back on a night: one slot is from another place.
    pub fn handed(&self, night: usize, slot: usize, from: &Store, source: usize) -> Store {
        let mut pool = self.now.pool.1.clone();
        let block = &from.pool.1[source * BLOCK_BYTES..][..BLOCK_BYTES];
        pool[slot * BLOCK_BYTES..][..BLOCK_BYTES].copy_from_slice(block);
        Store { pool: (pool_of_night(night), pool), records: self.now.records.clone() }
    }
}

fn pool_of_night(night: usize) -> String {
    format!("night-{night}.pool")
}

/// The store while it is filled.
struct Weeks {
    pool: Vec<u8>,
    records: Vec<u8>,
}

impl Weeks {
    /// Three signatures are filed, and a list of crashes to ignore.
    fn first(&mut self) -> Result<(), Refusal> {
        let filed = [
            line("7c20", "timeout in the loader", "harmless"),
            line("a41f", "crash in the decoder", "harmless"),
            line("e3b8", "lost write in the cache", "open, bug 31"),
        ];
        self.file(&filed.concat())?;
        self.file(&line("e3b8", "lost write in the cache", "ignore it"))
    }

    /// One verdict changes, one signature is new, the second list is withdrawn.
    fn second(&mut self) -> Result<(), Refusal> {
        let changed = line("a41f", "crash in the decoder", "eats data");
        self.write(48, &changed)?;
        tjornsaki::resize(&mut self.pool, &mut self.records, LIST, 192)?;
        self.write(144, &line("90d5", "hang in the scheduler", "open, bug 32"))?;
        tjornsaki::delete(&mut self.pool, &mut self.records, WITHDRAWN)
    }

    fn file(&mut self, text: &str) -> Result<(), Refusal> {
        let Weeks { pool, records } = self;
        let root = tjornsaki::create(pool, records)?;
        tjornsaki::resize(pool, records, root, text.len() as u64)?;
        tjornsaki::write(pool, records, root, 0, text.as_bytes())
    }

    fn write(&mut self, offset: u64, text: &str) -> Result<(), Refusal> {
        tjornsaki::write(&mut self.pool, &mut self.records, LIST, offset, text.as_bytes())
    }
}
