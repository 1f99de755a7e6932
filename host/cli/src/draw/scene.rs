//! What there is to see in a store. The survey says what is bad; blocks are
//! only read here for the shape of the trees.

use crate::layout::{self, block, records, Block, Record, State};
use crate::survey::Survey;
use std::collections::{HashMap, HashSet};
use tjornsaki::Refusal;

/// The greatest height of a root.
const TALLEST: u8 = 5;
/// Stores of more slots are too large to draw each of them.
const MOST_DRAWN: usize = 1_024;

#[derive(Clone, Copy, Debug, PartialEq, Eq)]
pub enum Role {
    Root,
    Inner,
    Leaf,
    Free,
    Broken,
}

/// A slot by its record, and what the store says of it.
pub struct Cell {
    pub slot: usize,
    pub role: Role,
    pub version: u64,
    pub refusal: Option<Refusal>,
    /// Not bad, but out of reach below a bad block.
    pub cut_off: bool,
    /// The slot and version that its block claims where they are others.
    pub claims: Option<String>,
}

impl Cell {
    pub fn worn(&self) -> bool {
        layout::worn(self.version)
    }

    /// Whether it is to be seen also where most slots are not.
    pub fn stands_out(&self) -> bool {
        self.refusal.is_some() || self.worn()
    }
}

/// What stands at one place of a tree.
#[derive(Clone, Copy)]
pub enum Part {
    Slot(usize),
    Run(Run),
}

/// Neighbours in a row that are drawn as one, and how many blocks are below them.
#[derive(Clone, Copy)]
pub struct Run {
    pub first: usize,
    pub last: usize,
    pub blocks: usize,
    /// Whether they are leaves, all of them.
    pub leaves: bool,
    pub below: usize,
    /// How many of all these are refused.
    pub refused: usize,
}

/// A block and those below it, as they are found.
pub struct Node {
    pub part: Part,
    pub children: Vec<Node>,
}

pub struct Blob {
    pub root: usize,
    pub tree: Node,
    pub length: Result<u64, Refusal>,
}

pub struct Scene {
    pub cells: Vec<Cell>,
    pub blobs: Vec<Blob>,
    pub audit: Result<u64, Refusal>,
}

impl Scene {
    pub fn new(pool: &[u8], record_bytes: &[u8]) -> Result<Scene, Refusal> {
        let survey = Survey::new(pool, record_bytes)?;
        let records = records(record_bytes);
        let mut seen = vec![false; records.len()];
        let mut blobs = Vec::new();
        for blob in &survey.blobs {
            let root = blob.root as usize;
            let tree = node(pool, &records, root, TALLEST, &mut seen);
            blobs.push(Blob { root, tree, length: blob.length });
        }
        let judged = Judged::new(&survey);
        let slots = (0..records.len()).map(|slot| cell(pool, records[slot], slot, &judged));
        Ok(Scene { cells: slots.collect(), blobs, audit: survey.audit })
    }

    /// Whether only parts of it are drawn.
    pub fn is_large(&self) -> bool {
        self.cells.len() > MOST_DRAWN
    }

    /// All refused slots, each once.
    pub fn refused(&self) -> impl Iterator<Item = &Cell> {
        self.cells.iter().filter(|cell| cell.refusal.is_some())
    }

    pub fn count(&self, wanted: impl Fn(&Cell) -> bool) -> usize {
        self.cells.iter().filter(|cell| wanted(cell)).count()
    }
}

/// The tree below a slot, as far as its blocks can be followed.
fn node(pool: &[u8], records: &[Record], slot: usize, height: u8, seen: &mut [bool]) -> Node {
    seen[slot] = true;
    let inner = |block: &Block<'_>| block.marked() && (1..=height).contains(&block.height());
    let row = block(pool, slot).filter(inner);
    let (row, below) = row.map_or((vec![], 0), |block| (block.children(), block.height() - 1));
    let mut children = Vec::new();
    for child in row {
        let part = records.get(child).map_or(false, |record| record.state == State::Part);
        if part && !seen[child] {
            children.push(node(pool, records, child, below, seen));
        }
    }
    Node { part: Part::Slot(slot), children }
}

/// What the survey says, by slots.
struct Judged {
    /// Of several refusals of a slot the first.
    bad: HashMap<u64, Refusal>,
    cut_off: HashSet<u64>,
}

impl Judged {
    fn new(survey: &Survey) -> Judged {
        let refusals = survey.bad.iter().rev().map(|bad| bad.refusal);
        let bad = refusals.filter_map(|refusal| refusal.slot.map(|slot| (slot, refusal)));
        Judged { bad: bad.collect(), cut_off: survey.cut_off.iter().copied().collect() }
    }
}

fn cell(pool: &[u8], record: Record, slot: usize, judged: &Judged) -> Cell {
    let found = block(pool, slot);
    let tall = found.map_or(false, |block| block.marked() && block.height() > 0);
    let role = match record.state {
        State::Free => Role::Free,
        State::Broken => Role::Broken,
        State::Root => Role::Root,
        State::Part if tall => Role::Inner,
        State::Part => Role::Leaf,
    };
    let refusal = judged.bad.get(&(slot as u64)).copied();
    let cut_off = judged.cut_off.contains(&(slot as u64));
    let claims =
        found.filter(|block| !block.blank()).and_then(|block| claims(slot, record, &block));
    Cell { slot, role, version: record.version, refusal, cut_off, claims }
}

/// What a block says of itself where its record says otherwise.
fn claims(slot: usize, record: Record, block: &Block<'_>) -> Option<String> {
    if !block.marked() {
        return Some("block has no mark".to_string());
    }
    if block.slot() != slot as u64 {
        return Some(format!("block says slot {}", block.slot()));
    }
    let differs = record.state == State::Free || block.version() != record.version;
    let words = || format!("block says version {}", block.version());
    differs.then(words)
}
