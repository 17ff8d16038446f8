//! How times grow with the number of components: the exponent b of the power a·n^b that lies nearest to them.

use crate::report::header;
use crate::row::Row;
use crate::shapes::SHAPES;
use crate::timing::CALLS;

/// Shorter stacks are left out: there the cost of a call as such still counts.
fn from(kind: &str) -> usize {
    match kind {
        "nested" => 16,
        _ => 64,
    }
}

/// An exponent for each shape and call, in the order of the table of times.
pub fn print(whose: &str, kinds: &[&[Row]]) {
    let lengths = "nested from 16 to 64 components, apart from 64 to 256";
    println!("\nHow {whose} grows: fitted exponents over the number of components, {lengths}\n");
    header("foldings | shape", "---|---");
    for rows in kinds {
        for (shape, name) in SHAPES {
            let long = |row: &&Row| row.shape == shape && row.count >= from(row.kind);
            let rows: Vec<&Row> = rows.iter().filter(long).collect();
            let fit = |of: fn(&Row, usize) -> f64, call: usize| {
                let points: Vec<_> = rows.iter().map(|row| (row.count as f64, of(row, call))).collect();
                format!("{:.1}", exponent(&points))
            };
            let cells =
                (0..CALLS.len()).flat_map(|call| [Row::library, Row::worst, Row::paper].map(|of| fit(of, call)));
            println!("| {} | {name} | {} |", rows[0].kind, cells.collect::<Vec<_>>().join(" | "));
        }
    }
}

/// The slope of the least squares line through the logarithms.
fn exponent(points: &[(f64, f64)]) -> f64 {
    let logs: Vec<(f64, f64)> = points.iter().map(|(n, seconds)| (n.ln(), seconds.ln())).collect();
    let mean = |of: &dyn Fn(&(f64, f64)) -> f64| logs.iter().map(of).sum::<f64>() / logs.len() as f64;
    let (x, y) = (mean(&|log| log.0), mean(&|log| log.1));
    mean(&|log| (log.0 - x) * (log.1 - y)) / mean(&|log| (log.0 - x) * (log.0 - x))
}
