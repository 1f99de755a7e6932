//! All slots by number.

use super::canvas::{shortened, Canvas, Pen, RED};
use super::cell::{self, reason, Scale};
use super::scene::Scene;

/// Slots side by side.
fn columns(slots: usize) -> usize {
    match slots {
        0..=64 => 8,
        65..=256 => 16,
        _ => 32,
    }
}

/// Draws the grid and answers its lower edge.
pub fn draw(canvas: &mut Canvas, scene: &Scene, left: i32, top: i32) -> i32 {
    let scale = Scale::of(scene.cells.len());
    let columns = columns(scene.cells.len());
    let (w, h) = scale.size();
    let corner = |slot: usize| {
        let (column, row) = (slot % columns, slot / columns);
        (left + column as i32 * w, top + row as i32 * h)
    };
    for cell in &scene.cells {
        let (x, y) = corner(cell.slot);
        cell::draw(canvas, cell, x, y, scale);
    }
    if scale == Scale::Small {
        notes(canvas, scene, columns, (left + columns as i32 * w + 10, top + h / 2 + 4));
    }
    corner(scene.cells.len().saturating_sub(1)).1 + h
}

/// Beside each row with small refused slots: which they are, and why.
fn notes(canvas: &mut Canvas, scene: &Scene, columns: usize, first: (i32, i32)) {
    for (row, cells) in (0..).zip(scene.cells.chunks(columns)) {
        let refused = cells.iter().filter(|cell| cell.refusal.is_some());
        let words: Vec<String> =
            refused.map(|cell| format!("{}: {}", cell.slot, reason(cell))).collect();
        if !words.is_empty() {
            let (x, y) = (first.0, first.1 + row * Scale::Small.size().1);
            canvas.text(x, y, Pen::left(12, RED).bold(), &shortened(words, 3).join(", "));
        }
    }
}
