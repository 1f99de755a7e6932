//! The whole page: title, verdict, colours, slots, blobs.

use super::canvas::{shortened, width_of, Canvas, Pen, FAINT, GREEN, INK, RED};
use super::cell::{self, Scale};
use super::fold::{self, Folder};
use super::scene::{Blob, Cell, Node, Role, Scene};
use super::tree::place;
use super::{grid, map};
use crate::layout::{blocks, leaves};
use crate::wording::counted;

const MARGIN: i32 = 28;
/// Blobs stand side by side up to here.
const WIDTH: i32 = 1_640;
const BETWEEN_BLOBS: i32 = 36;
/// What the trees are, in words.
const ROOTS: &str = "root on top; a leaf holds up to 48 bytes, a block above up to 12 blocks";
const FOLDED: &str = "root on top; drawn is what leads to refused and worn blocks and to the last leaf; other neighbours stand together in one box";
/// Refused slots told in words at the top.
const MOST_TOLD: usize = 12;

pub fn page(scene: &Scene, title: &str) -> String {
    let mut canvas = Canvas::default();
    canvas.text(MARGIN, 50, Pen::left(26, INK).bold(), title);
    let y = verdict(&mut canvas, scene, 80);
    let y = colours(&mut canvas, y + 14);
    let y = slots(&mut canvas, scene, y + 44);
    let y = heading(&mut canvas, "Blobs", if scene.is_large() { FOLDED } else { ROOTS }, y + 52);
    match scene.is_large() {
        true => folded_blobs(&mut canvas, scene, y),
        false => {
            let whole = scene.blobs.iter().map(|blob| (blob, &blob.tree));
            blobs(&mut canvas, scene, whole, Scale::of(scene.cells.len()), y);
        }
    }
    canvas.finish(MARGIN)
}

/// All slots: large enough to be read, or as dots, and then the refused ones again.
fn slots(canvas: &mut Canvas, scene: &Scene, y: i32) -> i32 {
    if !scene.is_large() {
        let y = heading(canvas, "Slots", &counts(scene), y);
        return grid::draw(canvas, scene, MARGIN, y);
    }
    let y = heading(canvas, "Slots", &format!("{}; {}", counts(scene), map::words(scene)), y);
    let y = map::draw(canvas, scene, MARGIN, y);
    if scene.refused().next().is_none() {
        return y;
    }
    let y = heading(canvas, "Refused slots", &map::large_words(scene), y + 52);
    map::draw_large(canvas, scene, MARGIN, y)
}

/// What the audit says, and each refused slot in words.
fn verdict(canvas: &mut Canvas, scene: &Scene, y: i32) -> i32 {
    let mut y = y;
    match scene.audit {
        Ok(live) => {
            let slots = counted(live, "slot");
            let words = format!("Sound: the audit passes, {slots} in use.");
            canvas.text(MARGIN, y, Pen::left(15, GREEN).bold(), &words);
        }
        Err(_) => {
            let words = "Not sound: the audit is refused.";
            canvas.text(MARGIN, y, Pen::left(15, RED).bold(), words);
        }
    }
    let refused: Vec<String> = scene.refused().map(told).collect();
    for words in shortened(refused, MOST_TOLD) {
        y += 20;
        canvas.text(MARGIN, y, Pen::left(13, RED), &words);
    }
    let cut_off = scene.count(|cell| cell.cut_off);
    if cut_off > 0 {
        y += 20;
        let slots = counted(cut_off as u64, "slot");
        let words = format!("Cut off, but not bad: {slots}.");
        canvas.text(MARGIN, y, Pen::left(13, FAINT), &words);
    }
    y
}

fn told(cell: &Cell) -> String {
    let words = cell.refusal.map_or(String::new(), |refusal| refusal.to_string());
    let claims = cell.claims.as_ref().map_or(String::new(), |claims| format!("; its {claims}"));
    let free = if cell.role == Role::Free { "free, " } else { "" };
    format!("{words} (its record says {free}version {}{claims})", cell.version)
}

/// One sample of each colour.
fn colours(canvas: &mut Canvas, y: i32) -> i32 {
    let sample = |role, version| {
        let (refusal, cut_off, claims) = (None, false, None);
        Cell { slot: 7, role, version, refusal, cut_off, claims }
    };
    let refused = tjornsaki::Refusal { number: 6, slot: None };
    let samples = [
        (sample(Role::Root, 1), "root"),
        (sample(Role::Inner, 1), "inner block"),
        (sample(Role::Leaf, 1), "leaf"),
        (sample(Role::Free, 1), "free"),
        (sample(Role::Free, u64::MAX), "free but worn"),
        (sample(Role::Leaf, u64::MAX), "in use but worn"),
        (Cell { refusal: Some(refused), ..sample(Role::Leaf, 1) }, "refused"),
    ];
    let mut x = MARGIN;
    for (cell, words) in samples {
        cell::draw(canvas, &cell, x, y, Scale::Small);
        canvas.text(x + 46, y + 18, Pen::left(12, INK), words);
        x += 46 + width_of(words, 12) + 16;
    }
    canvas.text(
        MARGIN,
        y + 46,
        Pen::left(12, FAINT),
        "slot number, and below it v and the version in the records",
    );
    y + 46
}

fn counts(scene: &Scene) -> String {
    let free = scene.count(|cell| cell.role == Role::Free && !cell.worn());
    let worn = scene.count(|cell| cell.role == Role::Free && cell.worn());
    let live = scene.cells.len() - free - worn;
    let worn = if worn > 0 { format!(", {worn} free but worn") } else { String::new() };
    let slots = counted(scene.cells.len() as u64, "slot");
    format!("{slots}: {live} in use, {free} free{worn}")
}

fn heading(canvas: &mut Canvas, words: &str, more: &str, y: i32) -> i32 {
    canvas.text(MARGIN, y, Pen::left(17, INK).bold(), words);
    canvas.text(MARGIN + width_of(words, 17) + 18, y, Pen::left(12, FAINT), more);
    y + 14
}

/// The blobs of a large store: some, and of these what stands out.
fn folded_blobs(canvas: &mut Canvas, scene: &Scene, top: i32) {
    let chosen = fold::chosen(scene);
    let mut folder = Folder::new(scene);
    let trees: Vec<Node> = chosen.iter().map(|blob| folder.fold(&blob.tree)).collect();
    let drawn = chosen.iter().copied().zip(&trees);
    let y = blobs(canvas, scene, drawn, Scale::Large, top);
    let more = scene.blobs.len() - chosen.len();
    if more > 0 {
        let refused = |blobs: usize| counted(blobs as u64, "refused blob");
        let all = scene.blobs.iter().filter(|blob| blob.length.is_err()).count();
        let seen = chosen.iter().filter(|blob| blob.length.is_err()).count();
        let words = format!(
            "and {}, {} among them",
            counted(more as u64, "more blob"),
            refused(all - seen)
        );
        canvas.text(MARGIN, y + 28, Pen::left(13, FAINT), &words);
    }
}

/// The blobs from left to right, in as many lines as they need. Answers the lower
/// edge.
fn blobs<'a>(
    canvas: &mut Canvas,
    scene: &Scene,
    drawn: impl Iterator<Item = (&'a Blob, &'a Node)>,
    scale: Scale,
    top: i32,
) -> i32 {
    let (mut x, mut y, mut tall) = (MARGIN, top, 0);
    if scene.blobs.is_empty() {
        canvas.text(MARGIN, y + 14, Pen::left(13, FAINT), "none");
    }
    for (blob, tree) in drawn {
        let tree = place(tree, scale, WIDTH);
        let (name, about) = (format!("Blob {}", blob.root), about(blob));
        let wide = tree.width.max(width_of(&about, 11)).max(width_of(&name, 14));
        if x > MARGIN && x + wide > MARGIN + WIDTH {
            (x, y, tall) = (MARGIN, y + tall + BETWEEN_BLOBS, 0);
        }
        let colour = if blob.length.is_ok() { FAINT } else { RED };
        canvas.text(x, y + 16, Pen::left(14, INK).bold(), &name);
        canvas.text(x, y + 32, Pen::left(11, colour), &about);
        tree.draw(canvas, scene, x, y + 42, scale);
        tall = tall.max(tree.height + 42);
        x += wide + BETWEEN_BLOBS;
    }
    y + tall
}

fn about(blob: &Blob) -> String {
    match blob.length {
        Ok(length) => {
            let blocks = counted(blocks(leaves(length)), "block");
            format!("{}, {blocks}", counted(length, "byte"))
        }
        Err(refusal) => refusal.to_string(),
    }
}
