//! A book of a history of calls: the bytes of each blob alive, as plain lists.
//! It knows nothing of blocks but their number, and says what each call on a
//! sound store must answer.

use crate::call::Call;
use crate::layout::{blocks_of, View};
use std::collections::BTreeMap;
use tjornsaki::raw::Answer;

pub struct Book {
    slots: u64,
    blobs: BTreeMap<u64, Vec<u8>>,
    head: Option<BookedHead>,
}

/// A head by the bytes that its blob had when it was opened.
struct BookedHead {
    root: u64,
    bytes: Vec<u8>,
    place: usize,
    /// Whether its blob was changed since then: what it hands out is not said.
    is_stale: bool,
}

impl BookedHead {
    /// Goes on by what is asked for or remains; whether so many bytes, and
    /// these, were handed out.
    fn goes_on(&mut self, size: usize, handed: u64, output: &[u8]) -> bool {
        let next = &self.bytes[self.place..];
        let count = size.min(next.len());
        self.place += count;
        handed == count as u64 && (self.is_stale || output.starts_with(&next[..count]))
    }
}

impl Book {
    /// The book after a wipe.
    pub fn new(slots: usize) -> Book {
        Book { slots: slots as u64, blobs: BTreeMap::new(), head: None }
    }

    /// "the sum, over blobs alive, of the block total for the length last
    /// given to each"
    fn live_slots(&self) -> u64 {
        self.blobs.values().map(|bytes| blocks_of(bytes.len() as u64)).sum()
    }

    /// The refusal that the call must get, or 0. No slot is worn.
    fn expected_number(&self, call: &Call) -> u64 {
        let beyond = |root: &u64, offset: u64, size: usize| {
            let end = u128::from(offset) + size as u128;
            end > self.blobs[root].len() as u128
        };
        let is_named = |root: &u64| self.blobs.contains_key(root);
        let free = self.slots - self.live_slots();
        match call {
            Call::Create if free == 0 => 11,
            Call::Wipe | Call::Create | Call::Audit | Call::Next { .. } => 0,
            Call::Length { root } | Call::Delete { root } => if_not(is_named(root), 3),
            Call::OpenHead { root } | Call::Scan { root, .. } => if_not(is_named(root), 3),
            Call::Read { root, .. } | Call::Write { root, .. } if !is_named(root) => 3,
            Call::Resize { root, .. } | Call::Show { root, .. } if !is_named(root) => 3,
            Call::Read { root, offset, size } | Call::Write { root, offset, size, .. } => {
                if_not(!beyond(root, *offset, *size), 10)
            }
            Call::Resize { root, length } => {
                let now = blocks_of(self.blobs[root].len() as u64);
                if_not(blocks_of(*length).saturating_sub(now) <= free, 11)
            }
            Call::Show { root, leaf } => {
                let leaves = rounded_up(self.blobs[root].len() as u64, 48);
                if_not(*leaf < leaves.max(1), 10)
            }
        }
    }

    /// Enters a call with its answer; says what is wrong with the answer.
    pub fn enter(
        &mut self,
        call: &Call,
        answer: &Answer,
        output: &[u8],
        after: View,
    ) -> Result<(), String> {
        let expected = self.expected_number(call);
        if answer[0] != expected {
            return Err(format!("{call:?} answers {}, not {expected}", answer[0]));
        }
        self.enter_head(call, expected == 0);
        if expected == 0 && !self.done(call, answer, output, after) {
            return Err(format!("{call:?} answers a wrong value or wrong bytes"));
        }
        Ok(())
    }

    /// The head after a call: opened or refused, or with its blob changed.
    fn enter_head(&mut self, call: &Call, is_done: bool) {
        match *call {
            Call::OpenHead { root } | Call::Scan { root, .. } => {
                let open = |bytes| BookedHead { root, bytes, place: 0, is_stale: false };
                self.head = self.blobs.get(&root).cloned().map(open);
            }
            Call::Write { root, .. } | Call::Resize { root, .. } | Call::Delete { root } => {
                if let Some(head) = &mut self.head {
                    head.is_stale |= is_done && head.root == root;
                }
            }
            _ => {}
        }
    }

    /// Whether the head hands out these bytes when it is asked for so many.
    fn head_goes_on(&mut self, size: usize, handed: u64, output: &[u8]) -> bool {
        match &mut self.head {
            Some(head) => head.goes_on(size, handed, output),
            None => handed == 0,
        }
    }

    /// Enters a call that was done; whether its value and bytes are right.
    fn done(&mut self, call: &Call, answer: &Answer, output: &[u8], after: View) -> bool {
        match *call {
            Call::Wipe => self.blobs.clear(),
            Call::Create => return self.blobs.insert(answer[2], Vec::new()).is_none(),
            Call::Length { root } | Call::OpenHead { root } => {
                return answer[2] == self.blobs[&root].len() as u64
            }
            Call::Next { size } => return self.head_goes_on(size, answer[2], output),
            Call::Scan { root, size } => {
                let length = self.blobs[&root].len();
                let pieces = rounded_up(length as u64, size as u64);
                return answer[2..4] == [length as u64, pieces]
                    && self.head_goes_on(length, answer[2], output);
            }
            Call::Audit => return answer[2] == self.live_slots(),
            Call::Read { root, offset, .. } => {
                return self.blobs[&root][offset as usize..].starts_with(output)
            }
            Call::Show { root, leaf } => {
                let start = answer[2] as usize;
                let shown = &after.pool[start..start + answer[3] as usize];
                let mut leaves = self.blobs[&root].chunks(48).chain([&[][..]]);
                return leaves.nth(leaf as usize) == Some(shown);
            }
            Call::Delete { root } => drop(self.blobs.remove(&root)),
            Call::Write { root, offset, size, .. } => {
                let bytes = self.blobs.entry(root).or_default();
                bytes[offset as usize..][..size].copy_from_slice(&call.data());
            }
            Call::Resize { root, length } => {
                self.blobs.entry(root).or_default().resize(length as usize, 0);
            }
        }
        true
    }
}

fn rounded_up(number: u64, by: u64) -> u64 {
    number / by + u64::from(number % by != 0)
}

fn if_not(holds: bool, number: u64) -> u64 {
    if holds {
        0
    } else {
        number
    }
}
