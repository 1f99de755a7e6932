//! One slot, large or small.

use super::canvas::{width_of, Canvas, Frame, Pen, RED};
use super::scene::{Cell, Role, Run};

/// The outline of a slot in use that is worn.
const WORN: &str = "#d79a00";

/// How much room a slot gets.
#[derive(Clone, Copy, Debug, PartialEq, Eq)]
pub enum Scale {
    Large,
    Small,
}

impl Scale {
    pub fn of(slots: usize) -> Scale {
        if slots <= 64 {
            Scale::Large
        } else {
            Scale::Small
        }
    }

    /// Width and height of a slot.
    pub fn size(self) -> (i32, i32) {
        match self {
            Scale::Large => (104, 62),
            Scale::Small => (40, 28),
        }
    }
}

/// Fill, outline, text.
struct Look(&'static str, &'static str, &'static str);

fn look(cell: &Cell) -> Look {
    match cell.role {
        _ if cell.refusal.is_some() => Look(RED, "#8e1519", "#ffffff"),
        Role::Free if cell.worn() => Look("#f1cf7a", "#b98d1f", "#4a3600"),
        Role::Root => Look("#17566b", "#0e3c4c", "#ffffff"),
        Role::Inner => Look("#8cc0cb", "#4f8c9a", "#0d2a33"),
        Role::Leaf => Look("#dceef0", "#9cc4cc", "#17323a"),
        Role::Free => Look("#ffffff", "#dcd9cf", "#8a8980"),
        Role::Broken => Look("#eeeeee", "#999999", "#333333"),
    }
}

/// The role in a word, or why the slot is refused.
pub fn reason(cell: &Cell) -> String {
    match (cell.refusal, cell.role) {
        (Some(refusal), _) => format!("{} {}", refusal.number, refusal.words()),
        (None, Role::Root) => "root".into(),
        (None, Role::Inner) if cell.cut_off => "inner, cut off".into(),
        (None, Role::Leaf) if cell.cut_off => "leaf, cut off".into(),
        (None, Role::Inner) => "inner".into(),
        (None, Role::Leaf) => "leaf".into(),
        (None, Role::Free) if cell.worn() => "free, worn".into(),
        (None, Role::Free) => "free".into(),
        (None, Role::Broken) => "broken".into(),
    }
}

/// A version in at most six letters; the pointer shows all of it.
pub fn short(version: u64) -> String {
    if version == u64::MAX {
        return "v last".into();
    }
    let mut rest = version;
    for unit in ["", "k", "M", "G", "T", "P", "E"] {
        if rest < 10_000 {
            return format!("v{rest}{unit}");
        }
        rest /= 1_000;
    }
    format!("v{rest}E")
}

pub fn draw(canvas: &mut Canvas, cell: &Cell, x: i32, y: i32, scale: Scale) {
    let (w, h) = scale.size();
    let Look(fill, stroke, ink) = look(cell);
    let worn = cell.worn() && cell.refusal.is_none();
    let (stroke, thick) = if worn { (WORN, "3") } else { (stroke, "1") };
    let claims = cell.claims.as_ref().map_or(String::new(), |claims| format!("; {claims}"));
    canvas.open(&format!("slot {}: {}, version {}{claims}", cell.slot, reason(cell), cell.version));
    canvas.rect(Frame { x: x + 1, y: y + 1, w: w - 2, h: h - 2 }, fill, stroke, thick);
    let middle = x + w / 2;
    match scale {
        Scale::Large => {
            canvas.text(middle, y + 23, Pen::middle(18, ink).bold(), &cell.slot.to_string());
            canvas.text(middle, y + 38, Pen::middle(11, ink), &short(cell.version));
            canvas.text(middle, y + 53, Pen::middle(11, ink), &reason(cell));
        }
        Scale::Small => {
            canvas.text(middle, y + 13, Pen::middle(11, ink).bold(), &cell.slot.to_string());
            canvas.text(middle, y + 24, Pen::middle(9, ink), &short(cell.version));
        }
    }
    canvas.close();
}

/// The colour of a slot that is drawn as a dot.
pub fn colour(cell: &Cell) -> &'static str {
    match cell.role {
        Role::Free => look(cell).0,
        _ if cell.worn() && cell.refusal.is_none() => WORN,
        _ => look(cell).0,
    }
}

/// Neighbours as one, as large as a large slot: two sheets, one upon the other.
pub fn draw_run(canvas: &mut Canvas, run: &Run, x: i32, y: i32) {
    let (w, h) = Scale::Large.size();
    let Run { first, last, blocks, leaves, below, refused } = run;
    let (fill, ink) = if *refused > 0 { (RED, "#ffffff") } else { ("#eef3f2", "#17323a") };
    let what = match (blocks, leaves) {
        (1, _) => "1 block".to_string(),
        (_, true) => format!("{blocks} leaves"),
        (_, false) => format!("{blocks} blocks"),
    };
    canvas.open(&format!("{what}, slot {first} to slot {last}; {below} below, {refused} refused"));
    for step in [4, 0] {
        let frame = Frame { x: x + 1 + step, y: y + 1 + step, w: w - 6, h: h - 6 };
        canvas.rect(frame, fill, "#7f9aa3", "1");
    }
    let middle = x + w / 2 - 2;
    canvas.text(middle, y + 20, Pen::middle(14, ink).bold(), &what);
    let more = match (refused, below) {
        (0, 0) => String::new(),
        (0, below) => format!("{below} below"),
        (refused, _) => format!("{refused} refused"),
    };
    canvas.text(middle, y + 35, Pen::middle(11, ink), &format!("{first} .. {last}"));
    canvas.text(middle, y + 50, Pen::middle(11, ink), &more);
    canvas.close();
}

/// A flag below a small refused slot of a tree, over what stands there.
pub fn flag(canvas: &mut Canvas, cell: &Cell, x: i32, y: i32, scale: Scale) {
    if cell.refusal.is_none() || scale == Scale::Large {
        return;
    }
    let ((w, h), words) = (scale.size(), reason(cell));
    let wide = width_of(&words, 11) + 12;
    let left = (x + w / 2 - wide / 2).max(4);
    canvas.rect(Frame { x: left, y: y + h, w: wide, h: 18 }, RED, "#ffffff", "1.5");
    canvas.text(left + wide / 2, y + h + 13, Pen::middle(11, "#ffffff").bold(), &words);
}

#[cfg(test)]
mod tests {
    use super::short;

    #[test]
    fn versions_are_short() {
        let versions = [0, 9_999, 10_000, 123_456_789, u64::MAX - 1, u64::MAX];
        let words = ["v0", "v9999", "v10k", "v123M", "v18E", "v last"];
        assert_eq!(versions.map(short), words);
    }
}
