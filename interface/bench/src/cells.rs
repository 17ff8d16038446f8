//! Times both calls over rows of standard cells, with a place for each cell in the list of ends and with a place for each
//! stack alone, next to document 001's own method on the same rows; checks that both find as many stacks, and for a
//! count stacks of the same height.

use crate::cell_rows::{row, Shape, SHAPES};
use crate::clock;
use crate::paper_cells::{fewest, lowest};
use crate::report::{ratio, told};
use crate::rng::Rng;
use crate::row::{longest, median};
use crate::targets::verdict;
use crate::timing::{least_time, time};
use crate::{seed, STACKS};
use stack_folds::raw;
use std::fmt;
use std::iter::once;

/// Cells of the rows that the targets bound, and of those on which document 001's method has time for many stacks.
const MOST_CELLS: usize = 60_000;
const FEW_CELLS: usize = 6000;

/// For a count that method takes time in the product of cells and count, and is timed where it is at most this.
const MOST_STEPS: usize = 100_000_000;

#[derive(Clone, Copy)]
enum Limit {
    /// A height of so many times the tallest cell.
    Tallest(f64),
    /// The height of all cells.
    All,
    Count(u32),
}

const HEIGHTS: [Limit; 6] = [
    Limit::Tallest(1.0),
    Limit::Tallest(1.5),
    Limit::Tallest(10.0),
    Limit::Tallest(100.0),
    Limit::Tallest(1000.0),
    Limit::All,
];

const COUNTS: [u32; 9] = [1, 2, 3, 10, 100, 1000, 30_000, 60_000, 240_000_000];
const FEW_COUNTS: [u32; 6] = [1, 10, 100, 1000, 3000, 6000];

/// The calls, and under how many milliseconds the worst of each is to be.
const CALLS: [(&str, f64); 2] = [("to a height", 0.3), ("to a count", 3.0)];

/// One call on one row.
struct Timed {
    found: raw::Stacks,
    /// The seconds with a place for each cell, and with a place for each stack.
    roomy: f64,
    exact: f64,
    /// None where document 001's method was not timed.
    paper: Option<f64>,
}

/// Rows of one shape and one limit.
struct Line {
    shape: &'static str,
    limit: Limit,
    timed: Vec<Timed>,
}

pub fn print() {
    let calls = [lines(MOST_CELLS, &HEIGHTS), lines(MOST_CELLS, &COUNTS.map(Limit::Count))];
    print_targets(&calls);
    for (lines, (call, _)) in calls.iter().zip(CALLS) {
        print_lines(MOST_CELLS, call, lines);
    }
    print_lines(FEW_CELLS, CALLS[1].0, &lines(FEW_CELLS, &FEW_COUNTS.map(Limit::Count)));
}

fn print_targets(calls: &[Vec<Line>; 2]) {
    println!("\nAgainst the targets: rows of {MOST_CELLS} cells, over all limits and both lists of ends\n");
    println!("| call | shape | library | worst | under | met |");
    println!("|---|---|---:|---:|---:|---|");
    for (lines, (call, under)) in calls.iter().zip(CALLS) {
        for (_, shape) in SHAPES {
            let timed = lines.iter().filter(|line| line.shape == shape).flat_map(|line| &line.timed);
            let seconds: Vec<f64> = timed.flat_map(|timed| [timed.roomy, timed.exact]).collect();
            let (middle, worst) = (median(seconds.clone()), longest(seconds));
            let asked = verdict(Some((format!("{under} ms"), worst * 1e3 < under)));
            println!("| {call} | {shape} | {} | {} | {asked} |", told(middle), told(worst));
        }
    }
}

fn print_lines(cells: usize, call: &str, lines: &[Line]) {
    println!("\nRows of {cells} cells, {call}: the library's median and worst with a place for each cell, and for each stack;");
    println!("the median of document 001's method, for a count where cells times count are at most {MOST_STEPS}: many stacks");
    println!("only on the shorter rows, of {FEW_CELLS} cells\n");
    println!("| shape | limit | stacks | height | each cell | worst | each stack | worst | 001 | times faster |");
    println!("|---|---|---:|---:|---:|---:|---:|---:|---:|---:|");
    for line in lines {
        let over = |of: fn(&Timed) -> f64| line.timed.iter().map(of).collect::<Vec<f64>>();
        let found: [fn(&Timed) -> f64; 2] = [|timed| timed.found.count.into(), |timed| timed.found.height.into()];
        let found = found.map(|of| format!("{:.0}", median(over(of)))).join(" | ");
        let lists: [fn(&Timed) -> f64; 2] = [|timed| timed.roomy, |timed| timed.exact];
        let times = lists.map(|of| format!("{} | {}", told(median(over(of))), told(longest(over(of))))).join(" | ");
        let paper: Option<Vec<f64>> = line.timed.iter().map(|timed| timed.paper).collect();
        let paper = paper.map(median).map_or("– | –".into(), |seconds| {
            format!("{} | {}", told(seconds), ratio(seconds / median(over(lists[0]))))
        });
        println!("| {} | {} | {found} | {times} | {paper} |", line.shape, line.limit);
    }
}

fn lines(cells: usize, limits: &[Limit]) -> Vec<Line> {
    let of_shape = |(at, (shape, name))| {
        let (start, rows) = (clock::seconds(), rows(cells, at, shape));
        let line = |limit: &Limit| Line {
            shape: name,
            limit: *limit,
            timed: rows.iter().map(|heights| time_row(heights, *limit)).collect(),
        };
        let lines: Vec<Line> = limits.iter().map(line).collect();
        eprintln!("rows of {cells} cells, {name}: {:.1} s", clock::seconds() - start);
        lines
    };
    SHAPES.into_iter().enumerate().flat_map(of_shape).collect()
}

fn rows(cells: usize, shape_at: usize, shape: Shape) -> Vec<Vec<u16>> {
    let mut rng = Rng(seed(cells, shape_at));
    (0..STACKS).map(|_| row(&mut rng, cells, shape)).collect()
}

fn time_row(heights: &[u16], limit: Limit) -> Timed {
    let number = limit.number(heights);
    let mut ends = vec![0; heights.len()];
    let (found, roomy) = least_time(|| limit.call(heights, number, &mut ends));
    let count = found.count as usize;
    check(heights, &ends[..count], found);
    let (again, exact) = least_time(|| limit.call(heights, number, &mut ends[..count]));
    assert_eq!(again, found, "the stacks depend on the list's length");
    check(heights, &ends[..count], found);
    let paper = limit.in_steps(heights.len()).then(|| time_paper(heights, limit, number, found));
    Timed { found, roomy, exact, paper }
}

fn time_paper(heights: &[u16], limit: Limit, number: u32, found: raw::Stacks) -> f64 {
    let (other, seconds) = match limit {
        Limit::Count(_) => time(|| lowest(heights, number)),
        _ => time(|| fewest(heights, number)),
    };
    // How high the fewest stacks for a height are is open.
    let same_height = other.height == found.height || !matches!(limit, Limit::Count(_));
    assert!(other.count == found.count && same_height, "the library and document 001's method differ");
    seconds
}

/// The ends rise to the last cell, and the highest stack is as high as was answered.
fn check(heights: &[u16], ends: &[u16], found: raw::Stacks) {
    assert_eq!(found.refusal, 0, "the row is refused");
    let ends: Vec<usize> = ends.iter().map(|end| usize::from(*end)).collect();
    assert_eq!(ends.last(), Some(&heights.len()), "cells are left");
    let stacks = once(&0).chain(&ends).zip(&ends).map(|(before, end)| &heights[*before..*end]);
    let of_stack = |stack: &[u16]| stack.iter().map(|cell| u32::from(*cell)).sum();
    let highest = stacks.inspect(|stack| assert!(!stack.is_empty(), "a stack is empty")).map(of_stack).max();
    assert_eq!(highest, Some(found.height), "the stacks have another height");
}

impl Limit {
    /// Of a row.
    fn number(self, heights: &[u16]) -> u32 {
        let cells = heights.iter().map(|cell| u32::from(*cell));
        match self {
            Limit::Tallest(times) => (times * cells.max().map_or(0.0, f64::from)) as u32,
            Limit::All => cells.sum(),
            Limit::Count(most) => most,
        }
    }

    fn call(self, heights: &[u16], number: u32, ends: &mut [u16]) -> raw::Stacks {
        match self {
            Limit::Count(_) => raw::cells_to_count(heights, number, ends),
            _ => raw::cells_to_height(heights, number, ends),
        }
    }

    /// Whether document 001's method is timed at so many cells.
    fn in_steps(self, cells: usize) -> bool {
        match self {
            Limit::Count(most) => cells * cells.min(most as usize) <= MOST_STEPS,
            _ => true,
        }
    }
}

impl fmt::Display for Limit {
    fn fmt(&self, f: &mut fmt::Formatter) -> fmt::Result {
        match self {
            Limit::Tallest(times) => write!(f, "{times} × tallest"),
            Limit::All => write!(f, "all"),
            Limit::Count(most) => write!(f, "{most}"),
        }
    }
}
