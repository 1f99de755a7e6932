//! Every bad slot of a store, where the library stops at the first.
//!
//! The library alone decides whether the store is sound and which blobs read
//! (`blobs`). This goes on after its first refusal, with the same checks in the
//! same order, so that all damage is seen at once:
//!
//! * Every broken record is bad (2). It stops every blob.
//! * Each blob is walked by itself. The row of a block that passes all checks is
//!   followed, past bad children too. The row of a bad block is not trusted and
//!   not followed: what it led to is cut off.
//! * A block that two blobs have in their rows is the fault of the later one's
//!   row (8), as the audit says. Both blobs still read.
//! * A part that no blob reaches is bad (8) if no bad record, block or row can be
//!   why. Otherwise it is judged as a part of a blob, as far as its place is
//!   known: its height may be 0 to 4, and where it may lie on the right edge it
//!   may be short. If it is well so far, it is not bad, only cut off.
//! * A free slot that is not all zeros is bad (9).
//!
//! What the library refuses is always listed, and if its audit passes nothing is.
//! All of it takes time by the number of slots, however many blobs they hold.

mod blobs;
#[cfg(test)]
mod tests;
mod walk;

use crate::layout::{block, records, roots, Record, State};
use std::collections::HashMap;
use std::rc::Rc;
use tjornsaki::Refusal;
use walk::{Walk, Walker};

/// A bad slot.
#[derive(Clone, Debug, PartialEq, Eq)]
pub struct Bad {
    pub refusal: Refusal,
    /// The blobs that are refused because of it; where it is itself cut off,
    /// those that it may belong to. Many bad slots may hurt all blobs: they share
    /// one list.
    pub hurts: Rc<Vec<u64>>,
    pub cut_off: bool,
}

/// A blob, and what the library says of it.
pub struct Blob {
    pub root: u64,
    pub length: Result<u64, Refusal>,
}

/// What there is to say of a whole store.
pub struct Survey {
    pub audit: Result<u64, Refusal>,
    pub blobs: Vec<Blob>,
    /// By rising slots.
    pub bad: Vec<Bad>,
    /// Parts that are well, but that no blob reaches past a bad block.
    pub cut_off: Vec<u64>,
}

impl Survey {
    /// Looks at every slot; refused where the lengths fit no store.
    pub fn new(pool: &[u8], record_bytes: &[u8]) -> Result<Survey, Refusal> {
        let audit = tjornsaki::audit(pool, record_bytes);
        if let Err(refusal @ Refusal { number: 1, .. }) = audit {
            return Err(refusal);
        }
        let records = records(record_bytes);
        let mut found = match audit {
            Ok(_) => Found::default(),
            Err(_) => Found::new(pool, &records),
        };
        let blobs = blobs::all(pool, record_bytes, audit, &found);
        for blob in &blobs {
            let refusal = blob.length.err();
            refusal.into_iter().for_each(|refusal| found.add(refusal, &one(blob.root)));
        }
        audit.err().into_iter().for_each(|refusal| found.add(refusal, &Rc::default()));
        found.settle();
        Ok(Survey { audit, blobs, bad: found.bad, cut_off: found.cut_off })
    }
}

/// What the walks find, without the library.
#[derive(Default)]
struct Found {
    bad: Vec<Bad>,
    /// Where in the list a refusal stands.
    places: HashMap<(u64, Option<u64>), usize>,
    /// Where blobs were added to those of a refusal.
    added: Vec<usize>,
    cut_off: Vec<u64>,
    /// The first fault of each blob, if it has one.
    firsts: Vec<Option<Refusal>>,
    /// The slots of the blobs that have none.
    clean: Vec<bool>,
}

impl Found {
    fn new(pool: &[u8], records: &[Record]) -> Found {
        let mut found = Found { clean: vec![false; records.len()], ..Found::default() };
        let roots = Rc::new(roots(records));
        for slot in slots_that_are(records, State::Broken) {
            found.add(refused(2, slot), &roots);
        }
        found.walk_all(pool, records, &roots);
        for slot in slots_that_are(records, State::Free) {
            if !block(pool, slot).map_or(true, |block| block.blank()) {
                found.add(refused(9, slot), &Rc::default());
            }
        }
        found.settle();
        found
    }

    /// Each blob, and then what none of them reaches.
    fn walk_all(&mut self, pool: &[u8], records: &[Record], roots: &[u64]) {
        let broken = !self.bad.is_empty();
        let mut walker = Walker::new(pool, records);
        let mut reached = vec![false; records.len()];
        let (mut cut, mut explained) = (Vec::new(), broken);
        for root in roots {
            let walk = walker.blob(*root as usize);
            explained |= self.take(&walk, *root, &reached) || walk.cut;
            cut.extend(Some(*root).filter(|_| walk.cut || broken));
            walk.visited.iter().for_each(|slot| reached[*slot] = true);
        }
        if explained {
            self.take_cut_off(&walker.cut_off(&reached), cut);
        } else {
            self.unreached(records, &reached);
        }
    }

    /// The faults of one blob. Answers whether it has rows that lead into blobs
    /// before it; those are bad too.
    fn take(&mut self, walk: &Walk, root: u64, reached: &[bool]) -> bool {
        walk.faults.iter().for_each(|fault| self.add(*fault, &one(root)));
        self.firsts.push(walk.faults.first().copied());
        if walk.faults.is_empty() {
            walk.visited.iter().for_each(|slot| self.clean[*slot] = true);
        }
        let astray =
            walk.links.iter().filter(|(parent, child)| reached[*child] && !reached[*parent]);
        let parents: Vec<usize> = astray.map(|(parent, _)| *parent).collect();
        parents.iter().for_each(|parent| self.add(refused(8, *parent), &Rc::default()));
        !parents.is_empty()
    }

    /// Parts in no row, with nothing that explains it.
    fn unreached(&mut self, records: &[Record], reached: &[bool]) {
        for slot in slots_that_are(records, State::Part).filter(|slot| !reached[*slot]) {
            self.add(refused(8, slot), &Rc::default());
        }
    }

    /// Parts that are cut off from these blobs: bad ones, and those that are well.
    fn take_cut_off(&mut self, walk: &Walk, blobs: Vec<u64>) {
        let blobs = Rc::new(blobs);
        let mut well: Vec<u64> = walk.visited.iter().map(|slot| *slot as u64).collect();
        well.sort_unstable();
        for fault in &walk.faults {
            let known = self.bad.len();
            self.add(*fault, &blobs);
            self.bad[known..].iter_mut().for_each(|bad| bad.cut_off = true);
        }
        let mut bad: Vec<Option<u64>> = walk.faults.iter().map(|fault| fault.slot).collect();
        bad.sort_unstable();
        well.retain(|slot| bad.binary_search(&Some(*slot)).is_err());
        self.cut_off = well;
    }

    /// Lists a refusal once, with the blobs that it hurts.
    fn add(&mut self, refusal: Refusal, hurts: &Rc<Vec<u64>>) {
        let next = self.bad.len();
        let place = *self.places.entry((refusal.number, refusal.slot)).or_insert(next);
        match self.bad.get_mut(place) {
            Some(known) => {
                Rc::make_mut(&mut known.hurts).extend(hurts.iter());
                self.added.push(place);
            }
            None => self.bad.push(Bad { refusal, hurts: hurts.clone(), cut_off: false }),
        }
    }

    /// Puts the list in order, and the blobs of each refusal, each once.
    fn settle(&mut self) {
        self.added.sort_unstable();
        self.added.dedup();
        for place in self.added.drain(..) {
            let hurts = Rc::make_mut(&mut self.bad[place].hurts);
            hurts.sort_unstable();
            hurts.dedup();
        }
        self.bad.sort_by_key(|bad| (bad.refusal.slot, bad.refusal.number));
        let numbered = self.bad.iter().zip(0..);
        self.places =
            numbered.map(|(bad, place)| ((bad.refusal.number, bad.refusal.slot), place)).collect();
    }
}

fn one(root: u64) -> Rc<Vec<u64>> {
    Rc::new(vec![root])
}

fn refused(number: u64, slot: usize) -> Refusal {
    Refusal { number, slot: Some(slot as u64) }
}

fn slots_that_are(records: &[Record], state: State) -> impl Iterator<Item = usize> + '_ {
    (0..records.len()).filter(move |slot| records[*slot].state == state)
}
