//! Times the longest stacks with some of their folds barred beside the same stacks without marks, and these beside the
//! library before, which knew no marks.

use crate::barred::{time_beside, Beside, FIGURES};
use crate::clock;
use crate::report::{outlines, ratio, told, TWICE};
use crate::rng::Rng;
use crate::row::{longest, median, Row, KINDS};
use crate::shapes::SHAPES;
use crate::stacks::{barring, stack};
use crate::timing::{time_stack, Timed};
use crate::{seed, STACKS};

/// How many fourths of the folds are barred.
const BARRED: [(usize, &str); 3] = [(1, "a quarter"), (3, "three quarters"), (4, "all but the last")];

/// No further stack of a shape is begun after so many seconds.
const CELL: f64 = 30.0;

/// The stacks of one kind, length and shape: without marks, and with each number of barred folds.
struct Cell {
    unmarked: Row,
    barred: [Vec<Beside>; BARRED.len()],
}

pub fn print(before: &[Row]) {
    let lengths = [(true, 64), (false, 256)].into_iter();
    let cells = lengths.flat_map(|(nested, count)| (0..SHAPES.len()).map(move |at| cell(nested, count, at)));
    let cells: Vec<Cell> = cells.collect();
    if !before.is_empty() {
        print_unmarked(&cells, before);
    }
    print_barred(&cells);
}

fn print_unmarked(cells: &[Cell], before: &[Row]) {
    println!(
        "\nNo fold barred: times, and how many times faster than before, over the stacks that both runs timed; {TWICE}\n"
    );
    head("stacks | outlines", "---:|---:");
    for [old, new] in cells.iter().filter_map(|cell| cell.unmarked.beside(before)) {
        let figures = [&old, &new].map(figures);
        let change = |at: usize| match (figures[0][at], figures[1][at]) {
            (Some(old), Some(now)) => format!("{} | {}", told(now), ratio(old / now)),
            (_, now) => format!("{} | –", now.map_or("–".into(), told)),
        };
        let cells = [0, 1, 2, 3, 4, 5].map(change).join(" | ");
        println!("| {} | {} | {} | {cells} |", named(&new), new.timed.len(), outlines(&old, &new));
    }
}

/// Medians, the folds at the limit of the table's middle line, and the worst. Figures from before there was a call for
/// the smallest area have none of it.
fn figures(row: &Row) -> [Option<f64>; FIGURES.len()] {
    let areas = row.areas(|area| area.call);
    let area = (!areas.is_empty()).then(|| median(areas));
    let folds = [row.library(0), row.worst(0), row.library(1), row.worst(1)].map(Some);
    [folds[0], folds[1], folds[2], folds[3], Some(row.library(2)), area]
}

/// The folds are means over a sweep of limits, which both stacks can keep, and the median of these over the stacks.
fn print_barred(cells: &[Cell]) {
    println!(
        "\nFolds barred: times, and how many times faster than the same stacks at the same limits without marks\n"
    );
    head("barred | outlines | stacks", "---|---:|---:");
    for cell in cells {
        for (timed, (_, name)) in cell.barred.iter().zip(BARRED) {
            let over = |at: usize| if FIGURES[at] == "worst" { longest } else { median };
            let seconds = |at: usize, which: usize| over(at)(timed.iter().map(|one| one.seconds[at][which]).collect());
            let cells = [0, 1, 2, 3, 4, 5].map(|at| {
                let [barred, unmarked] = [0, 1].map(|which| seconds(at, which));
                format!("{} | {}", told(barred), ratio(unmarked / barred))
            });
            let (named, stacks, cells) = (named(&cell.unmarked), timed.len(), cells.join(" | "));
            let outlines = median(timed.iter().map(|one| one.outlines as f64).collect());
            println!("| {named} | {name} | {outlines:.0} | {stacks} | {cells} |");
        }
    }
}

fn head(more: &str, aligned: &str) {
    let figures = FIGURES.map(|name| format!("{name} | times")).join(" | ");
    println!("| foldings | components | shape | {more} | {figures} |");
    println!("|---|---:|---|{aligned}|{}", "---:|".repeat(2 * FIGURES.len()));
}

fn named(row: &Row) -> String {
    format!("{} | {} | {}", row.kind, row.count, row.shape.name())
}

/// The stacks are those of the run without marks.
fn cell(nested: bool, count: usize, shape_at: usize) -> Cell {
    let ((shape, name), kind, start) = (SHAPES[shape_at], KINDS[usize::from(!nested)], clock::seconds());
    let mut timed: Vec<Timed> = Vec::new();
    let mut barred = BARRED.map(|_| Vec::new());
    let (mut sizes, mut marks) = (Rng(seed(count, shape_at)), Rng(seed(count, shape_at)));
    while timed.len() < STACKS && (timed.is_empty() || clock::seconds() - start < CELL) {
        let (stack, order) = (stack(&mut sizes, count, shape), barring(&mut marks, count));
        timed.push(time_stack(&stack, nested));
        for (timed, (fourths, _)) in barred.iter_mut().zip(BARRED) {
            timed.push(time_beside(&stack.barred(fourths, &order), &stack, nested));
        }
    }
    let (stacks, seconds) = (timed.len(), clock::seconds() - start);
    eprintln!("{kind}, {count} components, {name}, with marks: {seconds:.1} s for {stacks} of {STACKS} stacks");
    Cell { unmarked: Row { kind, count, shape, timed }, barred }
}
