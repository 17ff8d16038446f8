//! Times one stack with barred folds beside the same stack without marks. Each fold has the same limits on both, those
//! of the barred stack's table. Each stack's own middle line would not compare: marks leave few low lines, so that of a
//! barred stack is higher, and dearer.

use crate::library::Library;
use crate::paper::Paper;
use crate::stacks::Stack;
use crate::timing::{smallest, spaced, time, widths, within_height, within_width};
use stack_folds::Outline;

/// What is timed: each fold's mean and worst over a sweep of limits, then calls without a limit.
pub const FIGURES: [&str; 6] = ["fold to height", "worst", "fold to width", "worst", "table", "area"];

/// So often both stacks are timed in turns; the least time of each counts.
const TURNS: usize = 3;

/// Seconds of the barred stack and of the other.
type Both = [f64; 2];

pub struct Beside {
    pub outlines: usize,
    pub seconds: [Both; FIGURES.len()],
}

pub fn time_beside(barred: &Stack, unmarked: &Stack, nested: bool) -> Beside {
    let mut both = [barred, unmarked].map(|stack| Library::new(stack, nested));
    let ([table, _], table_seconds) = in_turns(&mut both, |library| library.table());
    let paper = Paper::new(&barred.components, nested).table();
    assert_eq!(table, paper, "the library and document 001's method differ with marks");
    let ([found, _], area_seconds) = in_turns(&mut both, |library| library.smallest_area());
    assert_eq!(found, smallest(&table), "the smallest area and the table differ with marks");
    let mut heights = spaced(table[table.len() - 1].height.0, table[0].height.0);
    heights.dedup();
    let [height_mean, height_worst] =
        sweep(&mut both, &heights, Library::fold_to_height, |limit| within_height(&table, limit));
    let [width_mean, width_worst] =
        sweep(&mut both, &widths(&table), Library::fold_to_width, |limit| within_width(&table, limit));
    let seconds = [height_mean, height_worst, width_mean, width_worst, table_seconds, area_seconds];
    Beside { outlines: table.len(), seconds }
}

/// The mean over the limits, and the worst. Every outline of the barred stack must be its table's for that limit.
fn sweep<'a>(
    both: &mut [Library<'a>; 2], limits: &[u32], fold: fn(&mut Library<'a>, u32) -> Option<Outline>,
    expected: impl Fn(u32) -> Option<Outline>,
) -> [Both; 2] {
    let (mut sums, mut worst) = ([0.0; 2], [0.0; 2]);
    for &limit in limits {
        let ([found, _], seconds) = in_turns(both, |library| fold(library, limit));
        assert_eq!(found, expected(limit), "the fold and the table differ with marks");
        for (which, seconds) in seconds.into_iter().enumerate() {
            sums[which] += seconds;
            worst[which] = f64::max(worst[which], seconds);
        }
    }
    [sums.map(|sum| sum / limits.len() as f64), worst]
}

/// What a call finds on both stacks, and its seconds.
fn in_turns<'a, T>(both: &mut [Library<'a>; 2], call: impl Fn(&mut Library<'a>) -> T) -> ([T; 2], Both) {
    let mut turn = || {
        let [(first, barred), (second, unmarked)] = both.each_mut().map(|library| time(|| call(library)));
        ([first, second], [barred, unmarked])
    };
    let (mut found, mut least) = turn();
    for _ in 1..TURNS {
        let (again, seconds) = turn();
        (found, least) = (again, [least[0].min(seconds[0]), least[1].min(seconds[1])]);
    }
    (found, least)
}
