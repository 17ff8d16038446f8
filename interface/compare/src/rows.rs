//! The outline table by a search over single rows, for stacks too long to enumerate.
//!
//! A fold's two sides are filled row by row from the fold up. A state says how many rows of each side have been laid; the
//! next row takes the next row of the left side, of the right side, or of both. A side may rest only between two
//! components. Rows that take neither are left out: without them all above moves down. For each state all unbeaten pairs
//! of rows used and greatest sum are kept, so no width is fixed in advance and nothing is halved. Marks leave out groups
//! by where they end and fold, and nested a group without a fold is left out unless it ends the stack; how two sides may be
//! filled depends on neither.

use crate::front::Front;
use crate::measure::Outline;
use crate::stack::{total, Component};

/// One row of a side: its width, and whether a component starts with it.
#[derive(Clone, Copy)]
struct Row {
    width: u32,
    starts: bool,
}

/// States that a table takes; a caller leaves out stacks that take too many.
pub fn cost(stack: &[Component]) -> u64 {
    (1..stack.len()).map(|k| u64::from(total(&stack[..k])) * u64::from(total(&stack[k..]))).sum()
}

pub fn table(stack: &[Component], nested: bool) -> Vec<Outline> {
    let n = stack.len();
    let groups = groups(stack, nested);
    let mut layouts = vec![Front::default(); n + 1];
    layouts[n].add(Outline { width: 0, height: 0 });
    for first in (0..n).rev() {
        for end in first + 1..=n {
            let rest = layouts[end].clone();
            for group in groups[first][end].outlines() {
                for other in rest.outlines() {
                    let height = group.height.max(other.height);
                    layouts[first].add(Outline { width: group.width + other.width, height });
                }
            }
        }
    }
    layouts.swap_remove(0).table()
}

/// The unbeaten outlines of every group, by its first component and its end; none of a group that no legal folding has.
fn groups(stack: &[Component], nested: bool) -> Vec<Vec<Front>> {
    let n = stack.len();
    let mut groups = vec![vec![Front::default(); n + 1]; n];
    (1..=n).filter(|&end| may_part(stack, end) && (!nested || end == n)).for_each(|end| flat(stack, end, &mut groups));
    if nested {
        (1..n).filter(|&right| may_part(stack, right)).for_each(|right| folded(stack, right, &mut groups));
    }
    groups
}

/// Adds the groups without a right side that end before component `end`.
fn flat(stack: &[Component], end: usize, groups: &mut [Vec<Front>]) {
    for first in 0..end {
        let group = &stack[first..end];
        let (before, after) = gaps(stack, first, end);
        let width = group.iter().map(|c| c.width).max().unwrap();
        groups[first][end].add(Outline { width, height: total(group) + before + after });
    }
}

/// Whether the components before `at` may have another group or side than those from there on.
fn may_part(stack: &[Component], at: usize) -> bool {
    stack[at - 1].mark == 0
}

/// The gaps before and after a group.
fn gaps(stack: &[Component], first: usize, end: usize) -> (u32, u32) {
    (if first == 0 { 0 } else { stack[first - 1].gap }, stack[end - 1].gap)
}

/// Adds the groups whose right side starts with component `right`.
fn folded(stack: &[Component], right: usize, groups: &mut [Vec<Front>]) {
    let left_rows = side(stack[..right].iter().rev());
    let right_rows = side(stack[right..].iter());
    let states = fill(&left_rows, &right_rows);
    for first in 0..right {
        for end in (right + 1..=stack.len()).filter(|&end| may_part(stack, end)) {
            let (before, after) = gaps(stack, first, end);
            let routing = before.max(after) + stack[right - 1].gap;
            let state = &states[total(&stack[first..right]) as usize][total(&stack[right..end]) as usize];
            for used in state.outlines() {
                groups[first][end].add(Outline { width: used.width, height: used.height + routing });
            }
        }
    }
}

fn side<'a>(components: impl Iterator<Item = &'a Component>) -> Vec<Row> {
    components.flat_map(|c| (0..c.height).map(|row| Row { width: c.width, starts: row == 0 })).collect()
}

/// For each number of rows laid on the left and on the right: the rows used as height, the greatest sum as width.
fn fill(left: &[Row], right: &[Row]) -> Vec<Vec<Front>> {
    let mut states = vec![vec![Front::default(); right.len() + 1]; left.len() + 1];
    states[0][0].add(Outline { width: 0, height: 0 });
    for l in 0..=left.len() {
        for r in 0..=right.len() {
            let here = states[l][r].clone();
            let may_rest = |rows: &[Row], at: usize| at == rows.len() || rows[at].starts;
            if l < left.len() && r < right.len() {
                lay(&mut states[l + 1][r + 1], &here, left[l].width + right[r].width);
            }
            if l < left.len() && may_rest(right, r) {
                lay(&mut states[l + 1][r], &here, left[l].width);
            }
            if r < right.len() && may_rest(left, l) {
                lay(&mut states[l][r + 1], &here, right[r].width);
            }
        }
    }
    states
}

fn lay(to: &mut Front, from: &Front, sum: u32) {
    for used in from.outlines() {
        to.add(Outline { width: used.width.max(sum), height: used.height + 1 });
    }
}
