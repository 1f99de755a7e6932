//! The model that changing calls work on: all slots decoded once, changed in
//! memory, then compared with what they were. So a version is judged once over
//! the whole call (reading 16) and nothing is written before all is decided.

use crate::bytes::{clear_block, decode_block, encode_block, encode_record};
use crate::bytes::{Content, Record, State, WORN_VERSION};
use crate::faults::{planted, Fault};

/// One slot. `version` is the record's version before the call.
#[derive(Clone, Copy, Debug, PartialEq, Eq)]
pub struct Cell {
    pub state: State,
    pub version: u64,
    pub content: Content,
}

impl Cell {
    /// "A free slot is usable if its record's version is below 2^64 - 1."
    pub fn is_usable(&self) -> bool {
        let worn = self.version == WORN_VERSION && !planted(Fault::WornSlotUsable);
        self.state == State::Free && !worn
    }

    /// The block goes: its slot is free and empty.
    pub fn goes(&mut self) {
        self.state = State::Free;
        self.content = Content::empty(0);
    }
}

/// All slots of a pool that has passed the pool check.
pub fn decode_cells(pool: &[u8], records: &[Record]) -> Vec<Cell> {
    let cell = |(slot, record): (usize, &Record)| Cell {
        state: record.state,
        version: record.version,
        content: decode_block(pool, slot).content,
    };
    records.iter().enumerate().map(cell).collect()
}

/// The usable free slots, the lowest first. For as long as slots are taken in
/// this order and none goes free, the next one is always "the lowest usable free
/// slot"; a search from slot 0 for each would take seconds in a large pool.
pub fn usable_slots(cells: &[Cell]) -> impl Iterator<Item = usize> + '_ {
    (0..cells.len()).filter(move |slot| cells[*slot].is_usable())
}

/// Puts a block into a slot that was free.
pub fn take(cells: &mut [Cell], slot: usize, state: State, content: Content) {
    cells[slot].state = state;
    cells[slot].content = content;
}

/// Writes every slot that the call has changed, and no other.
pub fn write_out(before: &[Cell], after: &[Cell], pool: &mut [u8], records: &mut [u8]) {
    for (slot, (old, new)) in before.iter().zip(after).enumerate() {
        match (old.state.is_live(), new.state.is_live()) {
            (false, false) => {}
            (true, false) => leave_free(slot, new, pool, records),
            // "a newly taken slot has its record's old version plus one"
            (false, true) => raise_version(slot, old, new, pool, records),
            // "A slot live before and after has version plus one if its height,
            // count or payload differs, and is otherwise unchanged in every byte."
            (true, true) if differs(old, new) => raise_version(slot, old, new, pool, records),
            (true, true) => {}
        }
    }
}

/// "A block that goes leaves 64 zeros and a free record that keeps its version."
fn leave_free(slot: usize, cell: &Cell, pool: &mut [u8], records: &mut [u8]) {
    clear_block(pool, slot);
    encode_record(records, slot, Record { state: State::Free, version: cell.version });
}

/// "Block and record carry the same version." No worn slot comes here: taken
/// slots are usable, and 12 refuses a change to a blob with a worn block.
fn raise_version(slot: usize, old: &Cell, new: &Cell, pool: &mut [u8], records: &mut [u8]) {
    let (in_block, in_record) = next_versions(old);
    encode_block(pool, slot, in_block, &new.content);
    encode_record(records, slot, Record { state: new.state, version: in_record });
}

/// "plus one", in block and record.
fn next_versions(old: &Cell) -> (u64, u64) {
    let next = old.version.saturating_add(1);
    match old.state.is_live() {
        false if planted(Fault::ReusedSlotAtVersionOne) => (1, 1),
        true if planted(Fault::VersionNotRaised) => (old.version, old.version),
        true if planted(Fault::RecordRaisedAlone) => (old.version, next),
        _ => (next, next),
    }
}

/// "its height, count or payload differs"
fn differs(old: &Cell, new: &Cell) -> bool {
    let mut old = old.content;
    if planted(Fault::HeightNotCompared) {
        old.height = new.content.height;
    }
    old != new.content
}
