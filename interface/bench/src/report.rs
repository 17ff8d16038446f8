//! The tables of docs/PERFORMANCE.md.

use crate::row::{longest, longest_stacks, median, Row};
use crate::timing::{Area, CALLS};

/// The head of a table that has, for each call, the library's median and worst and document 001's median.
pub fn header(first: &str, aligned: &str) {
    println!("| {first} | {} |", CALLS.map(|call| format!("{call} | worst | 001")).join(" | "));
    println!("|{aligned}|{}", "---:|".repeat(3 * CALLS.len()));
}

pub fn print_times(rows: &[Row]) {
    let kind = rows[0].kind;
    println!(
        "\nFoldings {kind}: for each call the library's median and worst, and the median of document 001's method\n"
    );
    header("components | shape | stacks | outlines", "---:|---|---:|---:");
    for row in rows {
        let cells = (0..CALLS.len()).flat_map(|call| [row.library(call), row.worst(call), row.paper(call)]);
        let cells = cells.map(told).collect::<Vec<String>>().join(" | ");
        let (count, shape, stacks, outlines) = (row.count, row.shape.name(), row.timed.len(), row.outlines());
        println!("| {count} | {shape} | {stacks} | {outlines:.0} | {cells} |");
    }
}

pub fn print_dearest(kinds: &[&[Row]]) {
    println!("\nDearest limits: heights as a share of the greatest, widths as a multiple of the least\n");
    println!("| foldings | components | shape | fold to height | at height | fold to width | at width |");
    println!("|---|---:|---|---:|---:|---:|---:|");
    for row in kinds.iter().flat_map(|rows| longest_stacks(rows)) {
        let cells = [0, 1].map(|fold| format!("{} | {:.2}", told(row.worst(fold)), row.dearest(fold)));
        println!("| {} | {} | {} | {} |", row.kind, row.count, row.shape.name(), cells.join(" | "));
    }
}

/// The smallest area beside what gives the same answer without the call: the table, and the fold to the height found in
/// it. The share is of those two together.
pub fn print_areas(rows: &[Row]) {
    let kind = rows[0].kind;
    println!("\nFoldings {kind}, the smallest area: medians and worst, timed in turns with the table and one fold\n");
    println!("| components | shape | stacks | area | worst | table | worst | fold | worst | share | greatest |");
    println!("|---:|---|---:|---:|---:|---:|---:|---:|---:|---:|---:|");
    for row in rows {
        let times: [fn(&Area) -> f64; 3] = [|area| area.call, |area| area.table, |area| area.fold];
        let cells = times.map(|of| format!("{} | {}", told(median(row.areas(of))), told(longest(row.areas(of)))));
        let shares = row.areas(|area| area.call / (area.table + area.fold));
        let (count, shape, stacks, cells) = (row.count, row.shape.name(), row.timed.len(), cells.join(" | "));
        println!("| {count} | {shape} | {stacks} | {cells} | {:.2} | {:.2} |", median(shares.clone()), longest(shares));
    }
}

/// What a row with two numbers of outlines says.
pub const TWICE: &str = "outlines before → now where tables are others";

/// Old and new side by side. Where tables stayed, document 001's method did the same in both runs, so its times tell the
/// two runs' speed. Where they did not, the folds had other limits too.
pub fn print_change(rows: &[Row], before: &[Row]) {
    let kind = rows[0].kind;
    let pairs: Vec<[Row; 2]> = rows.iter().filter_map(|row| row.beside(before)).collect();
    println!(
        "\nFoldings {kind}, before → now and how many times faster, over the stacks that both runs timed; {TWICE}\n"
    );
    let calls = CALLS.map(|call| format!("{call} | times | worst | times")).join(" | ");
    println!("| components | shape | stacks | outlines | {calls} |");
    println!("|---:|---|---:|---:|{}", "---:|".repeat(4 * CALLS.len()));
    for [old, new] in &pairs {
        let change = |of: fn(&Row, usize) -> f64, call: usize| {
            let (old, new) = (of(old, call), of(new, call));
            format!("{} → {} | {}", told(old), told(new), ratio(old / new))
        };
        let cells = (0..CALLS.len()).flat_map(|call| [Row::library, Row::worst].map(|of| change(of, call)));
        let (outlines, cells) = (outlines(old, new), cells.collect::<Vec<String>>().join(" | "));
        println!("| {} | {} | {} | {outlines} | {cells} |", new.count, new.shape.name(), new.timed.len());
    }
    print_speed(&pairs);
}

fn print_speed(pairs: &[[Row; 2]]) {
    let alike = pairs.iter().filter(|[old, new]| new.has_tables_of(old));
    let of_both = |[old, new]: &[Row; 2]| [0, 1, 2].map(|call| old.paper(call) / new.paper(call));
    let speeds: Vec<f64> = alike.flat_map(of_both).collect();
    let rows = speeds.len() / CALLS.len();
    if rows > 0 {
        let speed = median(speeds);
        println!("\nThe times of document 001's method before are {speed:.2} of those now, in the median over the {rows} rows");
        println!("whose tables have as many outlines as before.");
    }
}

/// The median number of outlines of a table, before too where the tables are others.
pub fn outlines(old: &Row, new: &Row) -> String {
    match new.has_tables_of(old) {
        true => format!("{:.0}", new.outlines()),
        false => format!("{:.0} → {:.0}", old.outlines(), new.outlines()),
    }
}

/// Three digits and a unit.
pub fn told(seconds: f64) -> String {
    let (value, unit) = match seconds {
        s if s < 1e-3 => (s * 1e6, "µs"),
        s if s < 1.0 => (s * 1e3, "ms"),
        s => (s, "s"),
    };
    let digits = match value {
        v if v < 10.0 => 2,
        v if v < 100.0 => 1,
        _ => 0,
    };
    format!("{value:.digits$} {unit}")
}

/// How many times faster: two digits, and one more above a hundred.
pub fn ratio(times: f64) -> String {
    let digits = match times {
        t if t < 1.0 => 2,
        t if t < 10.0 => 1,
        _ => 0,
    };
    format!("{times:.digits$}")
}
