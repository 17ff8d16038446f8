//! Folds a stack file and prints the outline and the placements, or prints its outline table. Or stacks a row of cells
//! of the heights given, and prints how many stacks there are, how high they are and where each ends.
//! Arguments: FILE apart|nested height|width LIMIT, or FILE apart|nested area|table,
//! or cells height|count LIMIT HEIGHT..
use stack_folds::{cells_to_count, cells_to_height, smallest_area, table, to_height, to_width};
use stack_folds::{Folding, Kind, Outline, Rows, Side, Slices, Stacks};
use std::{env, error::Error, fs, process::ExitCode};

const USAGE: &str = "usage: fold_file FILE apart|nested height|width LIMIT
       fold_file FILE apart|nested area|table
       fold_file cells height|count LIMIT HEIGHT..";

fn run(words: &[String]) -> Result<(), Box<dyn Error>> {
    let [path, kind, what, rest @ ..] = words else { return Err(USAGE.into()) };
    if path == "cells" {
        return cells(kind, what.parse()?, rest);
    }
    let kind = match kind.as_str() {
        "apart" => Kind::Apart,
        "nested" => Kind::Nested,
        _ => return Err("the kind is apart or nested".into()),
    };
    let file = fs::read(path)?;
    match (what.as_str(), rest) {
        ("height", [limit]) => print(&to_height(&file, kind, Rows(limit.parse()?))?),
        ("width", [limit]) => print(&to_width(&file, kind, Slices(limit.parse()?))?),
        ("area", []) => print(&smallest_area(&file, kind)?),
        ("table", []) => table(&file, kind)?.iter().for_each(print_outline),
        _ => return Err(USAGE.into()),
    }
    Ok(())
}

fn cells(toward: &str, limit: u32, heights: &[String]) -> Result<(), Box<dyn Error>> {
    let heights = heights.iter().map(|height| height.parse()).collect::<Result<Vec<u16>, _>>()?;
    match toward {
        "height" => print_stacks(&cells_to_height(&heights, Rows(limit))?),
        "count" => print_stacks(&cells_to_count(&heights, limit)?),
        _ => return Err("the limit is a height or a count".into()),
    }
    Ok(())
}

fn print_stacks(stacks: &Stacks) {
    println!("stacks {} height {}", stacks.ends.len(), stacks.height.0);
    for (i, end) in stacks.ends.iter().enumerate() {
        println!("S{} ends with cell {end}", i + 1);
    }
}

fn print_outline(outline: &Outline) {
    println!("width {} height {}", outline.width.0, outline.height.0);
}

fn print(folding: &Folding) {
    print_outline(&folding.outline);
    for (i, p) in folding.placements.iter().enumerate() {
        let side = if p.side == Side::Left { "left" } else { "right" };
        println!("C{} group {} {} start {}", i + 1, p.group, side, p.start.0);
    }
}

fn main() -> ExitCode {
    let words: Vec<String> = env::args().skip(1).collect();
    match run(&words) {
        Ok(()) => ExitCode::SUCCESS,
        Err(why) => {
            eprintln!("{why}");
            ExitCode::FAILURE
        }
    }
}
