//! The trees of a large store: what stands out is drawn, and neighbours that do
//! not are put together.

use super::scene::{Blob, Node, Part, Role, Run, Scene};

/// Blobs that are drawn.
const MOST_BLOBS: usize = 60;
/// Blocks that stand out and are drawn, in all trees together.
const MOST_BLOCKS: usize = 60;
/// A blob of a root and one row is drawn whole.
const WHOLE: usize = 13;

/// The blobs to draw, the refused ones first to be taken, by rising roots.
pub fn chosen(scene: &Scene) -> Vec<&Blob> {
    let (refused, read): (Vec<&Blob>, Vec<&Blob>) =
        scene.blobs.iter().partition(|blob| blob.length.is_err());
    let mut chosen: Vec<&Blob> = refused.into_iter().chain(read).take(MOST_BLOBS).collect();
    chosen.sort_by_key(|blob| blob.root);
    chosen
}

/// Puts neighbours together, tree by tree.
pub struct Folder<'a> {
    scene: &'a Scene,
    /// How many blocks that stand out are still to be drawn.
    left: usize,
}

/// What a tree holds.
#[derive(Clone, Copy, Default)]
struct Weight {
    blocks: usize,
    refused: usize,
    standing_out: usize,
}

impl<'a> Folder<'a> {
    pub fn new(scene: &'a Scene) -> Folder<'a> {
        Folder { scene, left: MOST_BLOCKS }
    }

    /// A tree with what stands out in it, the way there, and the right edge.
    pub fn fold(&mut self, tree: &Node) -> Node {
        let whole = self.weight(tree).blocks <= WHOLE;
        self.folded(tree, true, whole)
    }

    fn folded(&mut self, node: &Node, edge: bool, whole: bool) -> Node {
        let (mut children, mut run) = (Vec::new(), Vec::new());
        for (place, child) in node.children.iter().enumerate() {
            let on_edge = edge && place + 1 == node.children.len();
            let seen = self.left > 0 && self.weight(child).standing_out > 0;
            if !(whole || on_edge || seen) {
                run.push(child);
                continue;
            }
            children.extend(self.joined(&run));
            run.clear();
            self.left = self.left.saturating_sub(self.own(child).standing_out);
            children.push(self.folded(child, on_edge, whole));
        }
        children.extend(self.joined(&run));
        Node { part: node.part, children }
    }

    /// Neighbours as one; a leaf alone stays what it is.
    fn joined(&self, run: &[&Node]) -> Option<Node> {
        let (first, last) = (run.first()?, run.last()?);
        if run.len() == 1 && first.children.is_empty() {
            return Some(Node { part: first.part, children: vec![] });
        }
        let weights: Vec<Weight> = run.iter().map(|node| self.weight(node)).collect();
        let all: usize = weights.iter().map(|weight| weight.blocks).sum();
        let leaf = |node: &&Node| self.scene.cells[slot(node)].role == Role::Leaf;
        let part = Part::Run(Run {
            first: slot(first),
            last: slot(last),
            blocks: run.len(),
            leaves: run.iter().all(leaf),
            below: all - run.len(),
            refused: weights.iter().map(|weight| weight.refused).sum(),
        });
        Some(Node { part, children: vec![] })
    }

    fn weight(&self, node: &Node) -> Weight {
        node.children.iter().fold(self.own(node), |sum, child| {
            let Weight { blocks, refused, standing_out } = self.weight(child);
            Weight {
                blocks: sum.blocks + blocks,
                refused: sum.refused + refused,
                standing_out: sum.standing_out + standing_out,
            }
        })
    }

    /// Of the block alone.
    fn own(&self, node: &Node) -> Weight {
        let cell = &self.scene.cells[slot(node)];
        let (refused, standing_out) = (cell.refusal.is_some(), cell.stands_out());
        Weight { blocks: 1, refused: refused.into(), standing_out: standing_out.into() }
    }
}

/// The slot of a block, or the first of a run.
fn slot(node: &Node) -> usize {
    match node.part {
        Part::Slot(slot) => slot,
        Part::Run(run) => run.first,
    }
}
