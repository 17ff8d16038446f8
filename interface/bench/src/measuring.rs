//! Times measuring: foldings whose highest component starts at row 1,024,000, all in one group and in many. Nested groups
//! have two components at least, since each but the last needs a right side.

use crate::report::told;
use crate::rng::Rng;
use crate::row::{longest, median, KINDS};
use crate::timing::least_time;
use crate::STACKS;
use stack_folds::{raw, write, Component, Rows, Slices};

/// The highest start row.
const HIGHEST: u32 = 1_024_000;
const TALLEST: u32 = 4000;

/// A stack's file, the numbers of a folding, and its width and height.
struct Folded {
    file: Vec<u8>,
    flat: Vec<u32>,
    outline: [u32; 2],
}

pub fn print() {
    println!("\nMeasuring, a call: median and worst\n");
    println!("| foldings | components | in a group | heights | time | worst |");
    println!("|---|---:|---:|---|---:|---:|");
    for (nested, count, each) in
        [(true, 64, 64), (true, 64, 8), (true, 64, 2), (false, 256, 256), (false, 256, 16), (false, 256, 1)]
    {
        for (lowest, heights) in [(TALLEST, "4,000"), (1, "1 to 4,000")] {
            let times = times(nested, count, each, lowest);
            let (kind, median, worst) = (KINDS[usize::from(!nested)], median(times.clone()), longest(times));
            println!("| {kind} | {count} | {each} | {heights} | {} | {} |", told(median), told(worst));
        }
    }
}

fn times(nested: bool, count: usize, each: usize, lowest: u32) -> Vec<f64> {
    let mut rng = Rng((count + each) as u64);
    let call = |_| {
        let Folded { file, flat, outline } = folded(&mut rng, nested, count, each, lowest);
        let (answer, seconds) = least_time(|| raw::measure(&file, nested, &flat));
        assert_eq!((answer.refusal, [answer.width, answer.height]), (0, outline), "the folding is measured wrongly");
        seconds
    };
    (0..STACKS).map(call).collect()
}

fn folded(rng: &mut Rng, nested: bool, count: usize, each: usize, lowest: u32) -> Folded {
    let component = |_| Component {
        height: Rows(rng.within(lowest, TALLEST)),
        width: Slices(rng.within(1, 4000)),
        gap: Rows(0),
        barred: false,
    };
    let components: Vec<Component> = (0..count).map(component).collect();
    let file = write(&components).expect("the numbers are in range");
    let groups = components.chunks(each).enumerate();
    let flat: Vec<u32> = groups.flat_map(|(group, components)| placements(group as u32, components, nested)).collect();
    let outline = outline(&components, &flat, each);
    Folded { file, flat, outline }
}

/// The plain way, a sum over the group for each component. There are no gaps.
fn outline(components: &[Component], flat: &[u32], each: usize) -> [u32; 2] {
    let starts: Vec<u32> = flat.iter().skip(2).step_by(3).copied().collect();
    let end = |i: usize| starts[i] + components[i].height.0;
    let group = |i: usize| i / each * each..(i / each * each + each).min(starts.len());
    let in_row = |i: usize, row: u32| starts[i] <= row && row < end(i);
    let sum = |i: usize| group(i).filter(|&j| in_row(j, starts[i])).map(|j| components[j].width.0).sum::<u32>();
    let width = (0..starts.len()).step_by(each).map(|first| group(first).map(sum).max().unwrap()).sum();
    [width, (0..starts.len()).map(end).max().unwrap()]
}

/// A group with its fold in the middle, or without one. Each side stands without empty rows between its components.
fn placements(group: u32, components: &[Component], nested: bool) -> Vec<u32> {
    let lefts = if nested { components.len().div_ceil(2) } else { components.len() };
    let (left, right) = components.split_at(lefts);
    let mut left = starts(left.iter().rev());
    let right = starts(right.iter());
    let base = HIGHEST - left.iter().chain(&right).max().expect("a group has a component");
    left.reverse();
    let side = |side: u32| move |start: u32| [group, side, base + start];
    left.into_iter().map(side(0)).chain(right.into_iter().map(side(1))).flatten().collect()
}

/// Where each of a side starts, lowest first, where the lowest starts at 0.
fn starts<'a>(side: impl Iterator<Item = &'a Component>) -> Vec<u32> {
    side.scan(0, |end, component| {
        let start = *end;
        *end += component.height.0;
        Some(start)
    })
    .collect()
}
