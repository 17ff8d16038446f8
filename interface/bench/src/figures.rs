//! The figures of a run as a text, so that a later run can show old and new side by side.
//!
//! A line for each stack, with tabs between: foldings, components, shape, outlines; for each call the library's time, its
//! worst and the time of document 001's method, in microseconds; the dearest height and width; the times of the smallest
//! area, and of the table and the fold beside it. Lines from before there was such a call end behind the width.

use crate::row::{Row, KINDS};
use crate::shapes::SHAPES;
use crate::timing::{Area, Cost, Timed, CALLS};

const HEAD: &str =
    "# foldings, components, shape, outlines; for each call library, worst and 001 in µs; dearest limits; area";

pub fn text<'a>(rows: impl Iterator<Item = &'a Row>) -> String {
    let mut text = format!("{HEAD}\n");
    for row in rows {
        for timed in &row.timed {
            let (kind, count, shape, outlines) = (row.kind, row.count, row.shape.name(), timed.outlines);
            text += &format!("{kind}\t{count}\t{shape}\t{outlines}");
            let seconds = timed.costs.iter().flat_map(|cost| [cost.library, cost.worst, cost.paper]);
            seconds.for_each(|seconds| text += &format!("\t{:.3}", seconds * 1e6));
            timed.dearest.iter().for_each(|limit| text += &format!("\t{limit:.4}"));
            let seconds = timed.area.iter().flat_map(|area| [area.call, area.table, area.fold]);
            seconds.for_each(|seconds| text += &format!("\t{:.3}", seconds * 1e6));
            text += "\n";
        }
    }
    text
}

/// The rows of such a text, and none of an empty one.
pub fn rows(text: &str) -> Vec<Row> {
    let mut rows: Vec<Row> = Vec::new();
    for line in text.lines().filter(|line| !line.starts_with('#')) {
        let new = row(line).unwrap_or_else(|| panic!("no line of figures: {line}"));
        match rows.last_mut() {
            Some(last) if (last.kind, last.count, last.shape) == (new.kind, new.count, new.shape) => {
                last.timed.extend(new.timed);
            }
            _ => rows.push(new),
        }
    }
    rows
}

/// The row of one stack.
fn row(line: &str) -> Option<Row> {
    let words: Vec<&str> = line.split('\t').collect();
    let [kind, count, shape, outlines, numbers @ ..] = &words[..] else { return None };
    let numbers: Vec<f64> = numbers.iter().map(|word| word.parse().ok()).collect::<Option<_>>()?;
    let (numbers, behind) = numbers.split_at_checked(3 * CALLS.len() + 2)?;
    let area = match *behind {
        [] => None,
        [call, table, fold] => Some(Area { call: call / 1e6, table: table / 1e6, fold: fold / 1e6 }),
        _ => return None,
    };
    let cost = |call: usize| {
        let [library, worst, paper] = [0, 1, 2].map(|which| numbers[3 * call + which] / 1e6);
        Cost { library, worst, paper }
    };
    let dearest = [0, 1].map(|fold| numbers[3 * CALLS.len() + fold]);
    let timed = vec![Timed { costs: [0, 1, 2].map(cost), dearest, outlines: outlines.parse().ok()?, area }];
    let kind = KINDS.into_iter().find(|name| name == kind)?;
    let (shape, _) = SHAPES.into_iter().find(|(_, name)| name == shape)?;
    Some(Row { kind, count: count.parse().ok()?, shape, timed })
}
