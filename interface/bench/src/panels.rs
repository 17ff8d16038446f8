//! What the plot shows: a panel for each kind and call.

use crate::plot::{Line, Panel, Style};
use crate::row::{longest, median, Row};
use crate::timing::CALLS;

/// What the points of the panels are.
pub const CAPTION: [&str; 2] = [
    "Medians: each point is the median over the shapes of the median over their stacks, the folds at the limit of the \
     table's middle line.",
    "Worst: the longest time over all shapes and stacks of that length, for the folds also over all limits of the \
     sweep.",
];

const NOW: &str = "#1f5fa8";
const BEFORE: &str = "#777";
const PAPER: &str = "#c2571a";

/// The panels of one kind, from left to right. Without figures of an earlier run its lines are left out.
pub fn panels(rows: &[Row], before: &[Row]) -> Vec<Panel> {
    let before: Vec<Row> = before.iter().filter(|row| row.kind == rows[0].kind).cloned().collect();
    let mut counts: Vec<f64> = rows.iter().map(|row| row.count as f64).collect();
    counts.dedup();
    let panel = |(call, name): (usize, &str)| Panel {
        title: format!("{}: {name}", rows[0].kind),
        components: counts.clone(),
        lines: lines(call, rows, &before),
    };
    CALLS.into_iter().enumerate().map(panel).collect()
}

fn lines(call: usize, rows: &[Row], before: &[Row]) -> Vec<Line> {
    let line = |name, color, style, points| Line { name, color, style, points };
    let medians = |rows: &[Row]| points(rows, |row| row.library(call), median);
    let worst = |rows: &[Row]| points(rows, |row| row.worst(call), longest);
    let paper = points(rows, |row| row.paper(call), median);
    let mut lines = vec![
        line("library: median", NOW, Style::Median, medians(rows)),
        line("library before: median", BEFORE, Style::Before, medians(before)),
        line("document 001's method: median", PAPER, Style::Paper, paper),
        line("library: worst", NOW, Style::Worst, worst(rows)),
        line("library before: worst", BEFORE, Style::Worst, worst(before)),
    ];
    lines.retain(|line| !line.points.is_empty());
    lines
}

/// A point for each length, of one number for each shape, so that each counts the same however many stacks it had.
fn points(rows: &[Row], number: impl Fn(&Row) -> f64, of: fn(Vec<f64>) -> f64) -> Vec<(f64, f64)> {
    let lengths = rows.chunk_by(|a, b| a.count == b.count);
    lengths.map(|shapes| (shapes[0].count as f64, of(shapes.iter().map(&number).collect()))).collect()
}
