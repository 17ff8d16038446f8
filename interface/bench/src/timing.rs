//! Times one stack: the table and, at its middle line, both folds, by the library and by document 001's method; then
//! the library's folds over a sweep of limits, since the middle line is far from the dearest; and its smallest area.

use crate::clock;
use crate::library::Library;
use crate::paper::Paper;
use crate::stacks::Stack;
use stack_folds::Outline;
use std::fmt::Debug;
use std::hint::black_box;

pub const CALLS: [&str; 3] = ["fold to height", "fold to width", "table"];

/// Evenly spaced limits of a sweep, the least and the greatest among them.
const LIMITS: u32 = 20;

/// A call is repeated until so many seconds have passed, since the clock is coarse; a longer call is made once.
const SHORT: f64 = 0.002;

/// So often the smallest area, the table and the fold are timed in turns.
const TURNS: usize = 5;

/// The seconds of one call on one stack.
#[derive(Clone)]
pub struct Cost {
    pub library: f64,
    pub paper: f64,
    /// The library's at the dearest limit. The table has no limit, so there it is the library's one time.
    pub worst: f64,
}

/// The library's seconds for the smallest area, and for the table and the fold to the height found in it, which together
/// give the same answer. Document 001 has no method for it.
#[derive(Clone)]
pub struct Area {
    pub call: f64,
    pub table: f64,
    pub fold: f64,
}

#[derive(Clone)]
pub struct Timed {
    /// In the order of the calls.
    pub costs: [Cost; 3],
    /// The dearest height as a share of the greatest, and the dearest width as a multiple of the least.
    pub dearest: [f64; 2],
    pub outlines: usize,
    /// None in figures from before there was such a call.
    pub area: Option<Area>,
}

pub fn time_stack(stack: &Stack, nested: bool) -> Timed {
    let mut library = Library::new(stack, nested);
    let mut paper = Paper::new(&stack.components, nested);
    let (table, [library_seconds, paper_seconds]) = both(|| library.table(), || paper.table());
    let table_cost = Cost { library: library_seconds, paper: paper_seconds, worst: library_seconds };
    let (narrowest, lowest, middle) = (table[0], table[table.len() - 1], table[table.len() / 2]);
    let (height_cost, height) = time_fold(
        middle.height.0,
        &spaced(lowest.height.0, narrowest.height.0),
        |limit| library.fold_to_height(limit),
        |limit| paper.fold_to_height(limit),
        |limit| within_height(&table, limit),
    );
    let (width_cost, width) = time_fold(
        middle.width.0,
        &widths(&table),
        |limit| library.fold_to_width(limit),
        |limit| paper.fold_to_width(limit),
        |limit| within_width(&table, limit),
    );
    let dearest = [f64::from(height) / f64::from(narrowest.height.0), f64::from(width) / f64::from(narrowest.width.0)];
    let area = Some(time_area(&mut library, &table));
    Timed { costs: [height_cost, width_cost, table_cost], dearest, outlines: table.len(), area }
}

/// The smallest area must be the table's, and the fold must find its outline. The least time of each counts: area and
/// table are often close, and other work on the machine would decide which seems longer.
fn time_area(library: &mut Library, table: &[Outline]) -> Area {
    let smallest = smallest(table);
    let height = smallest.map_or(0, |line| line.height.0);
    let mut least = [f64::INFINITY; 3];
    for _ in 0..TURNS {
        let (found, call) = time(|| library.smallest_area());
        assert_eq!(found, smallest, "the smallest area and the table differ");
        let (_, table) = time(|| library.table());
        let (found, fold) = time(|| library.fold_to_height(height));
        assert_eq!(found, smallest, "the fold and the smallest area differ");
        least = [least[0].min(call), least[1].min(table), least[2].min(fold)];
    }
    let [call, table, fold] = least;
    Area { call, table, fold }
}

/// The line of the least area, and of equal ones the first, which is the narrowest.
pub fn smallest(table: &[Outline]) -> Option<Outline> {
    let area = |line: &&Outline| u64::from(line.width.0) * u64::from(line.height.0);
    table.iter().min_by_key(area).copied()
}

/// The cost of a fold, and its dearest limit. Every outline of the sweep must be the table's for that limit.
fn time_fold(
    middle: u32, limits: &[u32], mut library: impl FnMut(u32) -> Option<Outline>,
    mut paper: impl FnMut(u32) -> Option<Outline>, expected: impl Fn(u32) -> Option<Outline>,
) -> (Cost, u32) {
    let (_, [library_seconds, paper_seconds]) = both(|| library(middle), || paper(middle));
    let (mut worst, mut dearest) = (library_seconds, middle);
    for &limit in limits {
        let (found, mut seconds) = time(|| library(limit));
        assert_eq!(found, expected(limit), "the fold and the table differ");
        if seconds > worst {
            // The lesser of two times: other work on the machine can slow one call, and so make any limit the dearest.
            seconds = seconds.min(time(|| library(limit)).1);
        }
        if seconds > worst {
            (worst, dearest) = (seconds, limit);
        }
    }
    (Cost { library: library_seconds, paper: paper_seconds, worst }, dearest)
}

pub fn spaced(least: u32, greatest: u32) -> Vec<u32> {
    (0..LIMITS).map(|i| least + (greatest - least) * i / (LIMITS - 1)).collect()
}

/// The widths of a sweep: evenly spaced ones, and those that evenly spaced heights need. The fold to a width is dear
/// within a few times the least, where few of the former lie and most of the latter do.
pub fn widths(table: &[Outline]) -> Vec<u32> {
    let (narrowest, lowest) = (table[0], table[table.len() - 1]);
    let mut widths = spaced(narrowest.width.0, lowest.width.0);
    let heights = spaced(lowest.height.0, narrowest.height.0);
    widths.extend(heights.iter().filter_map(|&height| within_height(table, height)).map(|line| line.width.0));
    widths.sort_unstable();
    widths.dedup();
    widths
}

/// The narrowest line that keeps the height.
pub fn within_height(table: &[Outline], limit: u32) -> Option<Outline> {
    table.iter().find(|line| line.height.0 <= limit).copied()
}

/// The lowest line that keeps the width.
pub fn within_width(table: &[Outline], limit: u32) -> Option<Outline> {
    table.iter().rfind(|line| line.width.0 <= limit).copied()
}

/// What both methods find, which must be the same, and the seconds of the library and of document 001's method.
fn both<T: PartialEq + Debug>(library: impl FnMut() -> T, paper: impl FnMut() -> T) -> (T, [f64; 2]) {
    let ((found, library), (other, paper)) = (time(library), time(paper));
    assert_eq!(found, other, "the library and document 001's method differ");
    (found, [library, paper])
}

/// A call's result and the least of its times in so many turns.
pub fn least_time<T>(mut call: impl FnMut() -> T) -> (T, f64) {
    let (mut result, mut least) = time(&mut call);
    for _ in 1..TURNS {
        let (again, seconds) = time(&mut call);
        (result, least) = (again, least.min(seconds));
    }
    (result, least)
}

/// A call's result and its seconds.
pub fn time<T>(mut call: impl FnMut() -> T) -> (T, f64) {
    let start = clock::seconds();
    let mut calls = 0;
    loop {
        let result = black_box(call());
        calls += 1;
        let passed = clock::seconds() - start;
        if passed >= SHORT {
            return (result, passed / f64::from(calls));
        }
    }
}
