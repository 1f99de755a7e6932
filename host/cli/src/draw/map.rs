//! All slots of a large store as dots by number, and the refused ones again,
//! large.

use super::canvas::{Canvas, Frame, Pen, FAINT, RED};
use super::cell::{self, colour, reason, Scale};
use super::scene::{Cell, Scene};
use crate::wording::counted;

/// Refused slots that are drawn large.
const MOST_LARGE: usize = 60;
/// Large slots side by side.
const ASIDE: usize = 15;
/// Room for the numbers left of the dots.
const NUMBERS: i32 = 56;
/// Rows from one number to the next.
const STEP: usize = 16;

/// Dots side by side, and the size of each; all maps are about as wide.
fn measures(slots: usize) -> (usize, i32) {
    if slots <= 8_192 {
        (128, 12)
    } else {
        (256, 6)
    }
}

/// What the dots are, in words.
pub fn words(scene: &Scene) -> String {
    let (columns, _) = measures(scene.cells.len());
    format!("a dot for each slot, {columns} to a row, without its version")
}

/// Draws the dots, with a frame about each refused slot that is drawn large, and
/// answers the lower edge.
pub fn draw(canvas: &mut Canvas, scene: &Scene, left: i32, top: i32) -> i32 {
    let (columns, size) = measures(scene.cells.len());
    let left = left + NUMBERS;
    for (row, cells) in scene.cells.chunks(columns).enumerate() {
        let y = top + row as i32 * size;
        if row % STEP == 0 {
            let number = (row * columns).to_string();
            canvas.text(left - NUMBERS, y + 9, Pen::left(11, FAINT), &number);
        }
        draw_row(canvas, cells, left, y, size);
    }
    for cell in scene.refused().take(MOST_LARGE) {
        let (column, row) = ((cell.slot % columns) as i32, (cell.slot / columns) as i32);
        let (x, y) = (left + column * size - 4, top + row * size - 4);
        canvas.rect(Frame { x, y, w: size + 7, h: size + 7 }, "none", RED, "2");
    }
    let rows = (scene.cells.len() + columns - 1) / columns;
    top + rows as i32 * size
}

/// Dots of one row; neighbours that are alike are one area.
fn draw_row(canvas: &mut Canvas, cells: &[Cell], left: i32, y: i32, size: i32) {
    let alike =
        |one: &Cell, other: &Cell| reason(one) == reason(other) && one.worn() == other.worn();
    let mut start = 0;
    while start < cells.len() {
        let first = &cells[start];
        let run = cells[start..].iter().take_while(|cell| alike(first, cell)).count();
        let slots = match run {
            1 => format!("slot {}", first.slot),
            _ => format!("slots {} to {}", first.slot, first.slot + run - 1),
        };
        let frame = Frame { x: left + start as i32 * size, y, w: run as i32 * size, h: size - 1 };
        canvas.area(frame, colour(first), &format!("{slots}: {}", reason(first)));
        start += run;
    }
}

/// How many of the refused slots are drawn large, in words.
pub fn large_words(scene: &Scene) -> String {
    let refused = scene.refused().count();
    match refused.saturating_sub(MOST_LARGE) {
        0 => counted(refused as u64, "slot"),
        left_out => format!("the first {MOST_LARGE} of {refused} slots, without {left_out} more"),
    }
}

/// Draws refused slots large, and answers the lower edge.
pub fn draw_large(canvas: &mut Canvas, scene: &Scene, left: i32, top: i32) -> i32 {
    let (w, h) = Scale::Large.size();
    let mut bottom = top;
    for (place, cell) in scene.refused().take(MOST_LARGE).enumerate() {
        let (column, row) = ((place % ASIDE) as i32, (place / ASIDE) as i32);
        cell::draw(canvas, cell, left + column * w, top + row * h, Scale::Large);
        bottom = top + (row + 1) * h;
    }
    bottom
}
