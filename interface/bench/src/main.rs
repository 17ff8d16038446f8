//! Times both folds and the table, next to document 001's own method on the same stacks, both folds over a sweep of
//! limits, the smallest area, and measuring; checks that all find the same outlines. Prints the tables of
//! docs/PERFORMANCE.md, and as each row is done a line to standard error. Arguments: --measure, to time measuring alone;
//! --marks, to time only stacks with barred folds, beside the same without marks; --cells, to time only rows of standard
//! cells. With a file behind it: --picture, where to write the plot; --before, the figures of an earlier run to show beside
//! these; --keep, where to write the figures of this one.

mod barred;
mod cell_rows;
mod cells;
mod clock;
mod figures;
mod growth;
mod library;
mod marks;
mod measuring;
mod panels;
mod paper;
mod paper_cells;
mod plot;
mod report;
#[allow(dead_code)] // the comparison draws in more ways
#[path = "../../compare/src/rng.rs"]
mod rng;
mod row;
#[path = "../../compare/src/shapes.rs"]
mod shapes;
mod stacks;
mod targets;
mod timing;

use rng::Rng;
use row::{Row, KINDS};
use shapes::{Shape, SHAPES};
use stacks::stack;
use std::{env, fs};
use timing::{time_stack, Timed};

/// Stacks for each shape and length; fewer where those before took longer than so many seconds.
const STACKS: usize = 7;
const CELL: f64 = 12.0;

fn main() {
    if env::args().any(|word| word == "--measure") {
        return measuring::print();
    }
    if env::args().any(|word| word == "--cells") {
        return cells::print();
    }
    // Read first: a file that cannot be read should not cost a whole run.
    let before = named("--before").map(|path| figures::rows(&fs::read_to_string(path).expect("the figures are read")));
    let before = before.unwrap_or_default();
    if env::args().any(|word| word == "--marks") {
        return marks::print(&before);
    }
    let nested = rows(true, &[8, 16, 32, 48, 64]);
    let apart = rows(false, &[16, 64, 128, 256]);
    if let Some(path) = named("--keep") {
        fs::write(path, figures::text(nested.iter().chain(&apart))).expect("the figures are written");
    }
    print(&nested, &apart, &before);
    if let Some(path) = named("--picture") {
        let panels: Vec<_> = [&nested, &apart].into_iter().flat_map(|rows| panels::panels(rows, &before)).collect();
        fs::write(path, plot::svg(&panels, &panels::CAPTION)).expect("the plot is written");
    }
}

/// The word behind an argument.
fn named(argument: &str) -> Option<String> {
    env::args().skip_while(|word| word != argument).nth(1)
}

fn print(nested: &[Row], apart: &[Row], before: &[Row]) {
    targets::print(nested, apart, before);
    report::print_dearest(&[nested, apart]);
    growth::print("the library", &[nested, apart]);
    if !before.is_empty() {
        let kinds = KINDS.map(|kind| before.iter().filter(|row| row.kind == kind).cloned().collect::<Vec<Row>>());
        growth::print("the library before", &kinds.each_ref().map(|rows| &rows[..]));
        report::print_change(nested, before);
        report::print_change(apart, before);
    }
    report::print_times(nested);
    report::print_times(apart);
    report::print_areas(nested);
    report::print_areas(apart);
    measuring::print();
}

fn rows(nested: bool, counts: &[usize]) -> Vec<Row> {
    let kind = KINDS[usize::from(!nested)];
    let mut rows = Vec::new();
    for &count in counts {
        for (i, (shape, name)) in SHAPES.into_iter().enumerate() {
            let mut rng = Rng(seed(count, i));
            let start = clock::seconds();
            let timed = cell(&mut rng, nested, count, shape);
            let (stacks, seconds) = (timed.len(), clock::seconds() - start);
            eprintln!("{kind}, {count} components, {name}: {seconds:.1} s for {stacks} of {STACKS} stacks");
            rows.push(Row { kind, count, shape, timed });
        }
    }
    rows
}

/// A seed for each row: its stacks do not depend on how many the rows before had time for.
fn seed(count: usize, shape_at: usize) -> u64 {
    (SHAPES.len() * count + shape_at) as u64
}

fn cell(rng: &mut Rng, nested: bool, count: usize, shape: Shape) -> Vec<Timed> {
    let start = clock::seconds();
    let mut timed = Vec::new();
    while timed.len() < STACKS && (timed.is_empty() || clock::seconds() - start < CELL) {
        timed.push(time_stack(&stack(rng, count, shape), nested));
    }
    timed
}
