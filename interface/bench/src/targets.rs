//! What was asked of the library's times, beside what they are.

use crate::report::{ratio, told};
use crate::row::{longest_stacks, Row};
use crate::shapes::Shape;
use crate::timing::CALLS;

/// How many times faster than document 001's method a call on the longest nested stacks is to be, and under how many
/// seconds its worst.
fn asked(call: &str, shape: Shape) -> (Option<f64>, Option<f64>) {
    match (call, shape) {
        ("fold to height", Shape::Random | Shape::Gaps | Shape::Clashes) => (Some(6.0), Some(3e-3)),
        ("fold to height", _) => (Some(1.0), Some(3e-3)),
        ("fold to width", _) => (Some(30.0), Some(20e-3)),
        (_, Shape::Random) => (Some(20.0), Some(80e-3)),
        (_, Shape::SmoothWidths) => (None, Some(0.4)),
        _ => (None, None),
    }
}

/// How much slower than before a call may seem: medians of two runs of one and the same library differed by up to 15 in
/// a hundred on these stacks. So less than this is told as such, and not as slower.
const NOISE: f64 = 0.2;

pub fn print(nested: &[Row], apart: &[Row], before: &[Row]) {
    println!("\nAgainst the targets: the longest nested stacks, medians next to document 001's method\n");
    println!("| call | shape | library | 001 | times faster | at least | met | worst | under | met |");
    println!("|---|---|---:|---:|---:|---:|---|---:|---:|---|");
    for (call, name) in CALLS.into_iter().enumerate() {
        for row in longest_stacks(nested) {
            let (library, paper, worst) = (row.library(call), row.paper(call), row.worst(call));
            let (faster, under) = asked(name, row.shape);
            let ratio_asked = verdict(faster.map(|least| (format!("{least}"), paper / library >= least)));
            let worst_asked = verdict(under.map(|most| (format!("{:.0} ms", most * 1e3), worst < most)));
            let [library, paper, worst, times] = [told(library), told(paper), told(worst), ratio(paper / library)];
            let shape = row.shape.name();
            println!("| {name} | {shape} | {library} | {paper} | {times} | {ratio_asked} | {worst} | {worst_asked} |");
        }
    }
    if !before.is_empty() {
        print_apart(apart, before);
    }
}

/// What is asked and whether it is met.
pub fn verdict(asked: Option<(String, bool)>) -> String {
    match asked {
        Some((what, met)) => format!("{what} | {}", if met { "yes" } else { "no" }),
        None => "– | –".into(),
    }
}

/// The longest apart stacks are to be no slower than before. The medians decide: the worst of so short calls differ more
/// from run to run than any change here.
fn print_apart(apart: &[Row], before: &[Row]) {
    println!(
        "\nAgainst the targets: the longest apart stacks, times faster than before, over the stacks that both timed\n"
    );
    println!("| shape | {} | medians no slower |", CALLS.map(|call| format!("{call} | worst")).join(" | "));
    println!("|---|{}---|", "---:|".repeat(2 * CALLS.len()));
    for [old, new] in longest_stacks(apart).filter_map(|row| row.beside(before)) {
        let times = |of: fn(&Row, usize) -> f64, call: usize| of(&old, call) / of(&new, call);
        let medians = (0..CALLS.len()).map(|call| times(Row::library, call));
        let met = match medians.fold(f64::INFINITY, f64::min) {
            least if least >= 1.0 => "yes",
            least if least >= 1.0 - NOISE => "to within a fifth",
            _ => "no",
        };
        let cells = (0..CALLS.len()).flat_map(|call| [Row::library, Row::worst].map(|of| ratio(times(of, call))));
        println!("| {} | {} | {met} |", new.shape.name(), cells.collect::<Vec<_>>().join(" | "));
    }
}
