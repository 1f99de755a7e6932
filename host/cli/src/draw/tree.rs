//! Where the blocks of a blob stand: the root on top, its children below.
//!
//! Children stand in one row where it fits. Where it does not, they stand in
//! several rows beside a line that comes down from the block. Small leaves
//! stand in a stack below their block.

use super::canvas::Canvas;
use super::cell::{self, Scale};
use super::scene::{Node, Part, Scene};

/// Leaves side by side in a stack.
const STACK: usize = 3;
/// Between blocks above each other.
const DOWN: i32 = 20;
/// Between blocks side by side.
const ASIDE: i32 = 10;

/// Blocks and lines, placed from a corner at 0.
#[derive(Default)]
pub struct Placed {
    pub width: i32,
    pub height: i32,
    /// The middle of the topmost block.
    middle: i32,
    boxes: Vec<(i32, i32, Part)>,
    lines: Vec<((i32, i32), (i32, i32))>,
}

impl Placed {
    /// Takes another in, moved.
    fn take(&mut self, other: Placed, x: i32, y: i32) {
        let moved = |(a, b): (i32, i32)| (a + x, b + y);
        self.boxes.extend(other.boxes.iter().map(|(a, b, part)| (a + x, b + y, *part)));
        self.lines.extend(other.lines.iter().map(|(from, to)| (moved(*from), moved(*to))));
        self.width = self.width.max(x + other.width);
        self.height = self.height.max(y + other.height);
    }

    pub fn draw(&self, canvas: &mut Canvas, scene: &Scene, x: i32, y: i32, scale: Scale) {
        for ((a, b), (c, d)) in &self.lines {
            canvas.line((x + a, y + b), (x + c, y + d));
        }
        for (a, b, part) in &self.boxes {
            match part {
                Part::Slot(slot) => cell::draw(canvas, &scene.cells[*slot], x + a, y + b, scale),
                Part::Run(run) => cell::draw_run(canvas, run, x + a, y + b),
            }
        }
        for (a, b, part) in &self.boxes {
            if let Part::Slot(slot) = part {
                cell::flag(canvas, &scene.cells[*slot], x + a, y + b, scale);
            }
        }
    }
}

/// Places a tree in at most so much width, if its leaves allow it.
pub fn place(node: &Node, scale: Scale, limit: i32) -> Placed {
    let leaves = node.children.iter().all(|child| child.children.is_empty());
    if node.children.is_empty() {
        return single(node.part, scale);
    }
    if leaves && scale == Scale::Small {
        return stack(node, scale);
    }
    let indent = scale.size().0 / 2 + ASIDE;
    let children: Vec<Placed> =
        node.children.iter().map(|child| place(child, scale, limit - indent)).collect();
    let wide: i32 = children.iter().map(|child| child.width + ASIDE).sum();
    if wide - ASIDE <= limit {
        row(node.part, children, scale)
    } else {
        rows(node.part, children, scale, limit, indent)
    }
}

fn single(part: Part, scale: Scale) -> Placed {
    let (width, height) = scale.size();
    Placed { width, height, middle: width / 2, boxes: vec![(0, 0, part)], lines: vec![] }
}

/// A block over its leaves, several rows of them without gaps.
fn stack(node: &Node, scale: Scale) -> Placed {
    let (w, h) = scale.size();
    let columns = STACK.min(node.children.len());
    let middle = w * columns as i32 / 2;
    let mut placed = Placed { middle, ..Placed::default() };
    placed.lines.push(((middle, h), (middle, h + DOWN / 2)));
    placed.take(single(node.part, scale), middle - w / 2, 0);
    for (place, leaf) in node.children.iter().enumerate() {
        let (column, row) = ((place % columns) as i32, (place / columns) as i32);
        placed.take(single(leaf.part, scale), column * w, h + DOWN / 2 + row * h);
    }
    placed
}

/// A block over one row of children.
fn row(part: Part, children: Vec<Placed>, scale: Scale) -> Placed {
    let (w, h) = scale.size();
    let mut placed = Placed::default();
    let (mut x, mut middles) = (0, Vec::new());
    for child in children {
        middles.push(x + child.middle);
        let wide = child.width;
        placed.take(child, x, h + DOWN);
        x += wide + ASIDE;
    }
    let (first, last) = (middles[0], middles[middles.len() - 1]);
    placed.middle = (first + last) / 2;
    let bar = h + DOWN / 2;
    placed.lines.push(((placed.middle, h), (placed.middle, bar)));
    placed.lines.push(((first, bar), (last, bar)));
    placed.lines.extend(middles.iter().map(|middle| ((*middle, bar), (*middle, h + DOWN))));
    let left = placed.middle - w / 2;
    placed.take(single(part, scale), left, 0);
    placed
}

/// A block over several rows of children, beside a line from the block.
fn rows(part: Part, children: Vec<Placed>, scale: Scale, limit: i32, indent: i32) -> Placed {
    let (w, h) = scale.size();
    let spine = w / 2;
    let mut placed = Placed { middle: spine, ..Placed::default() };
    let (mut x, mut y, mut tall, mut bar) = (indent, h + DOWN, 0, h);
    for child in children {
        if x > indent && x + child.width > limit {
            (x, y, tall) = (indent, y + tall + DOWN, 0);
        }
        bar = y - DOWN / 2;
        let middle = x + child.middle;
        placed.lines.push(((spine, bar), (middle, bar)));
        placed.lines.push(((middle, bar), (middle, y)));
        let wide = child.width;
        tall = tall.max(child.height);
        placed.take(child, x, y);
        x += wide + ASIDE;
    }
    placed.lines.push(((spine, h), (spine, bar)));
    placed.take(single(part, scale), 0, 0);
    placed
}
