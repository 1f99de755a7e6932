//! The plot, drawn as SVG: times over the reference's, and times per slot.

use crate::aims::{self, CHANGING_MOST, READING_MOST};
use crate::cases::{NAMES, READING};
use crate::growth::Runs;
use crate::page::Result;
use crate::scale;
use crate::stores::{Fill, SIZES};
use std::fmt::Write;

const WIDTH: f64 = 430.0;
const HEIGHT: f64 = 300.0;
const COLOURS: [&str; 9] = [
    "#1b6ca8", "#d1495b", "#2e933c", "#8d5a97", "#e08e1b", "#3a3a3a", "#17a2a2", "#a0522d",
    "#c2185b",
];

/// One field of the plot: a value for each size, for some calls, on scales of powers.
struct Field<'a> {
    title: &'a str,
    names: &'a [&'a str],
    results: &'a [Result],
    sizes: &'a [usize],
    left: f64,
    top: f64,
    ticks: Vec<f64>,
    aim: Option<f64>,
    value: fn(&Result) -> f64,
}

/// The fields from the left to the right and down; those of larger pools if
/// there was a run over them.
pub fn plot(results: &[Result], runs: &Runs, machine: &str) -> String {
    let larger = runs.results();
    let mut fields = rows(results);
    if !larger.is_empty() {
        fields.extend(larger_row(&larger));
    }
    let height = 70 + 365 * fields.len() / 2;
    let mut svg = format!(
        "<svg xmlns=\"http://www.w3.org/2000/svg\" viewBox=\"0 0 1320 {height}\" width=\"1320\" height=\"{height}\" \
         font-family=\"sans-serif\" font-size=\"13\">\n<rect width=\"1320\" height=\"{height}\" fill=\"white\"/>\n",
    );
    let head = "The proved library, one blob that fills the pool: lower is better";
    text(&mut svg, 60.0, 26.0, "start", &format!("font-size=\"17\">{}", head));
    text(&mut svg, 60.0, 46.0, "start", &format!("fill=\"#555\">{}", machine));
    for (index, field) in fields.iter_mut().enumerate() {
        field.left = 60.0 + 650.0 * (index % 2) as f64;
        field.top = 90.0 + 365.0 * (index / 2) as f64;
        field.ticks = field.powers();
        draw(&mut svg, field);
    }
    svg + "</svg>\n"
}

fn rows(results: &[Result]) -> Vec<Field<'_>> {
    let (reading, changing) = NAMES.split_at(READING);
    let field = |title, names, aim, value| Field {
        title,
        names,
        results,
        sizes: &SIZES,
        left: 0.0,
        top: 0.0,
        ticks: Vec::new(),
        aim,
        value,
    };
    let (ratio, per_slot): (fn(&Result) -> f64, fn(&Result) -> f64) =
        (Result::ratio, Result::per_slot);
    let least = "reading calls: time over the reference's (dashed: the aim, at most 1)";
    let less = "changing calls: time over the reference's (dashed: the aim, at most 0.8)";
    vec![
        field(least, reading, Some(READING_MOST), ratio),
        field(less, changing, Some(CHANGING_MOST), ratio),
        field("reading calls: nanoseconds per slot", reading, None, per_slot),
        field("changing calls: nanoseconds per slot", changing, None, per_slot),
    ]
}

/// Times per slot once more, of the same calls.
fn larger_row(results: &[Result]) -> Vec<Field<'_>> {
    let mut fields = rows(results).split_off(2);
    fields[0].title = "reading calls in larger pools: nanoseconds per slot";
    fields[1].title = "changing calls in larger pools: nanoseconds per slot";
    fields.iter_mut().for_each(|field| field.sizes = &scale::SIZES);
    fields
}

fn draw(svg: &mut String, field: &Field) {
    text(
        svg,
        field.left,
        field.top - 12.0,
        "start",
        &format!("font-weight=\"bold\">{}", field.title),
    );
    for tick in &field.ticks {
        let y = field.y(*tick);
        line(svg, (field.left, y), (field.left + WIDTH, y), "stroke=\"#ddd\"");
        text(svg, field.left - 6.0, y + 4.0, "end", &format!(">{}", tick));
    }
    for (index, slots) in field.sizes.iter().enumerate() {
        let x = field.x(index);
        line(svg, (x, field.top), (x, field.top + HEIGHT), "stroke=\"#eee\"");
        text(svg, x, field.top + HEIGHT + 18.0, "middle", &format!(">{} slots", slots));
    }
    let mut labels = field.curves(svg);
    if let Some(aim) = field.aim {
        draw_aim(svg, field, aim);
    }
    spread(&mut labels);
    for (y, index) in labels {
        let colour = COLOURS[index % COLOURS.len()];
        let words = format!("fill=\"{}\">{}", colour, field.names[index]);
        text(svg, field.left + WIDTH + 2.0, y + 4.0, "start", &words);
    }
}

/// The dashed line of an aim.
fn draw_aim(svg: &mut String, field: &Field, aim: f64) {
    let y = field.y(aim);
    let dashes = "stroke=\"black\" stroke-width=\"1.5\" stroke-dasharray=\"7 5\"";
    line(svg, (field.left, y), (field.left + WIDTH, y), dashes);
}

impl Field<'_> {
    /// Powers of two, from below the least value to above the greatest.
    fn powers(&self) -> Vec<f64> {
        let drawn =
            |result: &&Result| result.fill == Fill::Full && self.names.contains(&result.name);
        let mut values: Vec<f64> = self.results.iter().filter(drawn).map(self.value).collect();
        values.extend(self.aim);
        let least = values.iter().copied().fold(f64::MAX, f64::min).max(0.001);
        let most = values.iter().copied().fold(0.0, f64::max).log2().ceil() as i32;
        let least = least.log2().floor() as i32;
        (least..=most.max(least + 1)).map(|power| 2f64.powi(power)).collect()
    }

    fn x(&self, index: usize) -> f64 {
        self.left + 30.0 + (WIDTH - 60.0) * index as f64 / (self.sizes.len() - 1) as f64
    }

    fn y(&self, value: f64) -> f64 {
        let (least, most) = (self.ticks[0].log2(), self.ticks[self.ticks.len() - 1].log2());
        let part = (value.max(self.ticks[0]).log2() - least) / (most - least);
        self.top + HEIGHT * (1.0 - part)
    }

    /// Draws a curve for each call, and says how high each ends.
    fn curves(&self, svg: &mut String) -> Vec<(f64, usize)> {
        let mut ends = Vec::new();
        for (index, name) in self.names.iter().enumerate() {
            let colour = COLOURS[index % COLOURS.len()];
            let mut points = String::new();
            let mut end = 0.0;
            for (at, slots) in self.sizes.iter().enumerate() {
                let x = self.x(at);
                end = self.y((self.value)(aims::find(self.results, name, Fill::Full, *slots)));
                let _ = write!(points, "{:.1},{:.1} ", x, end);
                let _ = writeln!(
                    svg,
                    "<circle cx=\"{:.1}\" cy=\"{:.1}\" r=\"3\" fill=\"{}\"/>",
                    x, end, colour
                );
            }
            let _ = writeln!(
                svg,
                "<polyline points=\"{}\" fill=\"none\" stroke=\"{}\" stroke-width=\"2\"/>",
                points.trim_end(),
                colour
            );
            ends.push((end, index));
        }
        ends
    }
}

/// Moves names apart that would lie on one another.
fn spread(labels: &mut [(f64, usize)]) {
    labels.sort_by(|a, b| a.0.total_cmp(&b.0));
    for at in 1..labels.len() {
        labels[at].0 = labels[at].0.max(labels[at - 1].0 + 16.0);
    }
}

fn line(svg: &mut String, from: (f64, f64), to: (f64, f64), stroke: &str) {
    let (x1, y1, x2, y2) = (from.0, from.1, to.0, to.1);
    let _ = writeln!(
        svg,
        "<line x1=\"{x1:.1}\" y1=\"{y1:.1}\" x2=\"{x2:.1}\" y2=\"{y2:.1}\" {stroke}/>"
    );
}

/// `words` starts with further attributes and a '>'.
fn text(svg: &mut String, x: f64, y: f64, anchor: &str, words: &str) {
    let gap = if words.starts_with('>') { "" } else { " " };
    let _ = writeln!(
        svg,
        "<text x=\"{x:.1}\" y=\"{y:.1}\" text-anchor=\"{anchor}\"{gap}{words}</text>"
    );
}
