//! SVG text, shape by shape.

use std::fmt::Write;

/// Colours: paper and ink, water for blocks in use, sand for worn, red for no.
pub const PAPER: &str = "#fbfaf6";
pub const INK: &str = "#1d2b33";
pub const FAINT: &str = "#6f7a7d";
pub const LINE: &str = "#7f9aa3";
pub const RED: &str = "#c3272b";
pub const GREEN: &str = "#2f7d4f";

const FONT: &str = "DejaVu Sans, Verdana, Helvetica, Arial, sans-serif";

/// Where a text stands to its point.
#[derive(Clone, Copy)]
pub enum Align {
    Left,
    Middle,
}

/// How a text looks.
#[derive(Clone, Copy)]
pub struct Pen {
    pub size: i32,
    pub bold: bool,
    pub colour: &'static str,
    pub align: Align,
}

impl Pen {
    pub fn left(size: i32, colour: &'static str) -> Pen {
        Pen { size, bold: false, colour, align: Align::Left }
    }

    pub fn middle(size: i32, colour: &'static str) -> Pen {
        Pen { size, bold: false, colour, align: Align::Middle }
    }

    pub fn bold(self) -> Pen {
        Pen { bold: true, ..self }
    }
}

/// A rectangle by its upper left corner.
#[derive(Clone, Copy)]
pub struct Frame {
    pub x: i32,
    pub y: i32,
    pub w: i32,
    pub h: i32,
}

#[derive(Default)]
pub struct Canvas {
    body: String,
    width: i32,
    height: i32,
}

impl Canvas {
    /// Lets the picture reach at least so far.
    fn reach(&mut self, x: i32, y: i32) {
        self.width = self.width.max(x);
        self.height = self.height.max(y);
    }

    pub fn rect(&mut self, frame: Frame, fill: &str, stroke: &str, thick: &str) {
        let Frame { x, y, w, h } = frame;
        self.reach(x + w, y + h);
        let _ = writeln!(
            self.body,
            r#"<rect x="{x}" y="{y}" width="{w}" height="{h}" rx="3" fill="{fill}" stroke="{stroke}" stroke-width="{thick}"/>"#
        );
    }

    /// A plain area whose words show when a pointer rests on it.
    pub fn area(&mut self, frame: Frame, fill: &str, words: &str) {
        let Frame { x, y, w, h } = frame;
        self.reach(x + w, y + h);
        let words = escaped(words);
        let _ = writeln!(
            self.body,
            r#"<rect x="{x}" y="{y}" width="{w}" height="{h}" fill="{fill}"><title>{words}</title></rect>"#
        );
    }

    pub fn line(&mut self, from: (i32, i32), to: (i32, i32)) {
        let ((a, b), (c, d)) = (from, to);
        let _ = writeln!(
            self.body,
            r#"<path d="M{a} {b}L{c} {d}" stroke="{LINE}" stroke-width="1.5" fill="none"/>"#
        );
    }

    pub fn text(&mut self, x: i32, y: i32, pen: Pen, words: &str) {
        let Pen { size, bold, colour, align } = pen;
        let (anchor, right) = match align {
            Align::Left => ("start", x + width_of(words, size)),
            Align::Middle => ("middle", x + width_of(words, size) / 2),
        };
        self.reach(right, y);
        let weight = if bold { r#" font-weight="bold""# } else { "" };
        let words = escaped(words);
        let _ = writeln!(
            self.body,
            r#"<text x="{x}" y="{y}" font-size="{size}" text-anchor="{anchor}" fill="{colour}"{weight}>{words}</text>"#
        );
    }

    /// Opens a group whose words show when a pointer rests on it.
    pub fn open(&mut self, words: &str) {
        let _ = writeln!(self.body, "<g><title>{}</title>", escaped(words));
    }

    pub fn close(&mut self) {
        self.body.push_str("</g>\n");
    }

    /// The whole picture, with a margin to the right and below.
    pub fn finish(self, margin: i32) -> String {
        let (w, h) = (self.width + margin, self.height + margin);
        let head = format!(
            r#"<svg xmlns="http://www.w3.org/2000/svg" width="{w}" height="{h}" viewBox="0 0 {w} {h}" font-family="{FONT}">"#
        );
        let paper = format!(r#"<rect width="{w}" height="{h}" fill="{PAPER}"/>"#);
        format!("{head}\n{paper}\n{}</svg>\n", self.body)
    }
}

/// About how wide a text is.
pub fn width_of(words: &str, size: i32) -> i32 {
    words.chars().count() as i32 * size * 62 / 100
}

/// The first few, and how many more there are.
pub fn shortened(mut words: Vec<String>, most: usize) -> Vec<String> {
    let more = words.len().saturating_sub(most);
    words.truncate(most);
    if more > 0 {
        words.push(format!("and {more} more"));
    }
    words
}

fn escaped(words: &str) -> String {
    words.replace('&', "&amp;").replace('<', "&lt;").replace('>', "&gt;").replace('"', "&quot;")
}
