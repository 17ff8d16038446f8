//! Rows of standard cells. Their stacks are enumerated one by one; found by a table of the least height of each number of
//! stacks; held to stacks filled from the back; and set beside the apart foldings of the same heights.

use crate::calls::{same, Caller, Compared, FoldCall};
use crate::front::{Aim, Toward};
use crate::rng::Rng;
use crate::rules::{Answer, LAST_LIMIT, LAST_ROW_LIMIT, MOST_CELLS, WORK};
use crate::stack::{some_file, Component};
use std::collections::BTreeSet;

const ENUMERATED: usize = 2_400;
const TABLED: usize = 240;
const BESIDE: usize = 60;
const LONG: usize = 12;
/// Up to this total every height is asked for; above it, some.
const LOW: u32 = 120;
/// Limits asked at random, where not every one is.
const ASKED: usize = 8;

/// What the stacks of a row must keep: a height, or a number of stacks.
#[derive(Clone, Copy, Debug, PartialEq, Eq)]
pub enum Keep {
    Height(u32),
    Count(u32),
}

impl Keep {
    pub fn limit(self) -> u32 {
        match self {
            Keep::Height(limit) | Keep::Count(limit) => limit,
        }
    }

    pub fn keeps(self, stacks: Stacks) -> bool {
        match self {
            Keep::Height(limit) => stacks.height <= limit,
            Keep::Count(most) => stacks.count <= most,
        }
    }
}

/// How many stacks there are, and how high the highest is.
#[derive(Clone, Copy, Debug, PartialEq, Eq, PartialOrd, Ord)]
pub struct Stacks {
    pub count: u32,
    pub height: u32,
}

/// The stacks of a row that end with the cells of these numbers, from 1. Nothing where a stack is empty, or where the last
/// cell of the row is not that of the last stack.
pub fn measured(row: &[u16], ends: &[u16]) -> Option<Stacks> {
    let (mut first, mut highest) = (0, 0);
    for end in ends.iter().map(|end| usize::from(*end)) {
        if end <= first || end > row.len() {
            return None;
        }
        highest = highest.max(total(&row[first..end]));
        first = end;
    }
    (first == row.len()).then_some(Stacks { count: ends.len() as u32, height: highest })
}

fn total(row: &[u16]) -> u32 {
    row.iter().map(|height| u32::from(*height)).sum()
}

fn tallest(row: &[u16]) -> u32 {
    row.iter().copied().max().unwrap().into()
}

/// All stacks of a row: each cell but the last is the last of a stack, or is not.
fn all_stacks(row: &[u16]) -> Vec<Stacks> {
    let last = row.len() - 1;
    let one = |ending: u32| {
        let ends = (0..=last).filter(|at| *at == last || ending >> at & 1 == 1).map(|at| at as u16 + 1);
        measured(row, &ends.collect::<Vec<u16>>()).expect("these are ends of stacks")
    };
    (0..1 << last).map(one).collect::<BTreeSet<Stacks>>().into_iter().collect()
}

/// Of each number of stacks the lowest. `least` has the least height of so many stacks of the first cells, for each number
/// of these: the last stack is any run at their end, and the stacks before it are one less.
fn lowest_of_each_number(row: &[u16]) -> Vec<Stacks> {
    let n = row.len();
    let sums: Vec<u32> = (0..=n).map(|cells| total(&row[..cells])).collect();
    let mut least = sums.clone();
    let mut lowest = vec![Stacks { count: 1, height: sums[n] }];
    for count in 2..=n {
        let split = |cells: usize| (count - 1..cells).map(|before| least[before].max(sums[cells] - sums[before])).min();
        // Fewer cells than stacks are never looked at.
        least = (0..=n).map(|cells| split(cells).unwrap_or(0)).collect();
        lowest.push(Stacks { count: count as u32, height: least[n] });
    }
    lowest
}

/// What a call must answer where these are the stacks of a row, or of each number the lowest.
fn best(stacks: &[Stacks], keep: Keep) -> Answer<Stacks> {
    let keeping = stacks.iter().copied().filter(|one| keep.keeps(*one));
    let best = match keep {
        Keep::Height(_) => keeping.min_by_key(|one| one.count),
        Keep::Count(_) => keeping.min_by_key(|one| (one.height, one.count)),
    };
    best.ok_or(9)
}

/// How many stacks the cells fill, from the last one on. No stacks that keep the height are fewer: each that is filled
/// begins at least as far in front as theirs.
fn from_the_back(row: &[u16], height: u32) -> u32 {
    let (mut count, mut growing) = (1, 0);
    for cell in row.iter().rev().map(|cell| u32::from(*cell)) {
        if growing + cell > height {
            (count, growing) = (count + 1, 0);
        }
        growing += cell;
    }
    count
}

/// Whether stacks that keep the limit are the best, by filling alone: no fewer are as low, and to a number of stacks no
/// others so few are lower.
fn are_best(row: &[u16], keep: Keep, stacks: Stacks) -> bool {
    match keep {
        Keep::Height(limit) => stacks.count == from_the_back(row, limit),
        Keep::Count(most) => {
            let none_lower = stacks.height == tallest(row) || from_the_back(row, stacks.height - 1) > most;
            stacks.count == from_the_back(row, stacks.height) && none_lower
        }
    }
}

/// Which cells a row has.
#[derive(Clone, Copy, Debug)]
enum Shape {
    Any,
    Equal,
    /// Low ones with a few tall ones between them.
    FewTall,
    Rising,
    Falling,
}

const SHAPES: [Shape; 5] = [Shape::Any, Shape::Equal, Shape::FewTall, Shape::Rising, Shape::Falling];

/// A row of so many cells, with no cell higher than `most`.
fn random(rng: &mut Rng, count: usize, shape: Shape, most: u32) -> Vec<u16> {
    let equal = rng.within(1, most);
    let cell = |_| match shape {
        Shape::Equal => equal,
        Shape::FewTall if rng.one_in(12) => most,
        Shape::FewTall => rng.within(1, most.div_ceil(8)),
        _ => rng.within(1, most),
    };
    let mut row: Vec<u16> = (0..count).map(cell).map(|height| height as u16).collect();
    match shape {
        Shape::Rising => row.sort_unstable(),
        Shape::Falling => row.sort_unstable_by(|a, b| b.cmp(a)),
        _ => {}
    }
    row
}

/// Adds to a difference the row that shows it, or its start where it is long.
fn told(row: &[u16]) -> impl FnOnce(String) -> String + '_ {
    move |what| format!("{what}\nrow of {} cells: {:?}", row.len(), &row[..row.len().min(300)])
}

/// Every limit worth asking of a low row; of others the edges, those around a few of the heights given, and random ones.
fn limits(rng: &mut Rng, row: &[u16], heights: &[u32]) -> Vec<Keep> {
    let (n, tallest, total) = (row.len() as u32, tallest(row), total(row));
    let mut asked = vec![1, tallest - 1, tallest, tallest + 1, total - 1, total, total + 1, LAST_ROW_LIMIT];
    match total <= LOW {
        true => asked.extend(1..=total),
        false => (0..ASKED).for_each(|_| {
            let height = rng.pick(heights);
            asked.extend([height - 1, height, height + 1, rng.within(tallest, total)]);
        }),
    }
    let mut counts = vec![1, 2, n, n + 1, n + 2, LAST_ROW_LIMIT];
    match n <= 12 {
        true => counts.extend(1..=n),
        false => counts.extend((0..ASKED).map(|_| rng.within(1, n))),
    }
    let heights = asked.into_iter().filter(|height| (1..=LAST_ROW_LIMIT).contains(height));
    heights.map(Keep::Height).chain(counts.into_iter().map(Keep::Count)).collect()
}

/// A call with a list that is longer than it must be, with one just long enough, and with shorter ones.
fn against(caller: &mut Caller, row: &[u16], own: Answer<Stacks>, keep: Keep) -> Compared<()> {
    let count = own.map_or(row.len(), |stacks| stacks.count as usize);
    for room in [count + 1 + caller.rng.below(4), count] {
        alike(keep, caller.cells(row, keep, room)?, own)?;
    }
    for room in [count - 1, caller.rng.below(count)] {
        same("stacks, and too few places", caller.cells(row, keep, room)?, own.and(Err(8)))?;
    }
    Ok(())
}

/// To a height, how high the stacks are is free up to the limit.
fn alike(keep: Keep, library: Answer<Stacks>, own: Answer<Stacks>) -> Compared<()> {
    let count = |answer: Answer<Stacks>| answer.map(|stacks| stacks.count);
    match keep {
        Keep::Height(_) => same("the number of stacks", count(library), count(own)),
        Keep::Count(_) => same("the stacks", library, own),
    }
    .map_err(|what| format!("{what}\n{keep:?}"))
}

pub fn enumerated(caller: &mut Caller) -> Compared<String> {
    let mut endings = 0;
    for at in 0..ENUMERATED {
        let most = caller.rng.pick(&[2, 4, 9, 4000]);
        let row = random(&mut caller.rng, 1 + at % 12, SHAPES[at / 12 % SHAPES.len()], most);
        endings += 1 << (row.len() - 1);
        every_ending(caller, &row).map_err(told(&row))?;
    }
    Ok(format!("{ENUMERATED} rows of 1 to 12 cells, {endings} ways to end their stacks enumerated"))
}

/// The library against all stacks of a row, and the other own ways too.
fn every_ending(caller: &mut Caller, row: &[u16]) -> Compared<()> {
    let (all, lowest) = (all_stacks(row), lowest_of_each_number(row));
    let heights: Vec<u32> = all.iter().map(|stacks| stacks.height).collect();
    for keep in limits(&mut caller.rng, row, &heights) {
        let own = best(&all, keep);
        alike(keep, best(&lowest, keep), own).map_err(|what| format!("the own table: {what}"))?;
        same("the own filling", own.is_err() || are_best(row, keep, own.unwrap()), true)?;
        against(caller, row, own, keep)?;
    }
    Ok(())
}

pub fn tabled(caller: &mut Caller) -> Compared<String> {
    for at in 0..TABLED {
        let count = if at < SHAPES.len() { 300 } else { caller.rng.within(13, 300) } as usize;
        let most = caller.rng.pick(&[2, 9, 100, 4000]);
        let row = random(&mut caller.rng, count, SHAPES[at % SHAPES.len()], most);
        let lowest = lowest_of_each_number(&row);
        let heights: Vec<u32> = lowest.iter().map(|stacks| stacks.height).collect();
        for keep in limits(&mut caller.rng, &row, &heights) {
            against(caller, &row, best(&lowest, keep), keep).map_err(told(&row))?;
        }
    }
    Ok(format!("{TABLED} rows of 13 to 300 cells, by the least height of each number of stacks"))
}

/// The apart folds of components that are as high as the cells and 1 wide, at limits that both calls take.
pub fn beside_apart(caller: &mut Caller) -> Compared<String> {
    for at in 0..BESIDE {
        let count = if at < SHAPES.len() { 256 } else { caller.rng.within(1, 256) } as usize;
        let most = caller.rng.pick(&[2, 9, 100, 4000]);
        let row = random(&mut caller.rng, count, SHAPES[at % SHAPES.len()], most);
        apart(caller, &row).map_err(told(&row))?;
    }
    Ok(format!("{BESIDE} rows of 1 to 256 cells beside apart foldings"))
}

fn apart(caller: &mut Caller, row: &[u16]) -> Compared<()> {
    let component = |height: &u16| Component { height: u32::from(*height), width: 1, gap: 0, mark: 0 };
    let stack: Vec<Component> = row.iter().map(component).collect();
    let bytes = some_file(&mut caller.rng, &stack);
    let (n, tallest, total) = (row.len() as u32, tallest(row), total(row));
    let rng = &mut caller.rng;
    let heights = [1, tallest - 1, tallest, total / 2, total / 9, total, rng.within(tallest, total), LAST_LIMIT];
    let counts = [1, 2, n / 3, n, n + 1, rng.within(1, n), rng.within(1, n), LAST_LIMIT];
    let keeps = heights.map(Keep::Height).into_iter().chain(counts.map(Keep::Count));
    for keep in keeps.filter(|keep| keep.limit() > 0) {
        let aim = match keep {
            Keep::Height(limit) => Aim::Within(Toward::Height, limit),
            Keep::Count(most) => Aim::Within(Toward::Width, most),
        };
        let call = FoldCall { file: &bytes, nested: false, aim, room: 3 * stack.len(), work: WORK };
        let folded = caller.fold(&call)?;
        let stacks = caller.cells(row, keep, row.len())?;
        let (stacked, folded) = match keep {
            Keep::Height(_) => (stacks.map(|stacks| stacks.count), folded.map(|outline| outline.width)),
            Keep::Count(_) => (stacks.map(|stacks| stacks.height), folded.map(|outline| outline.height)),
        };
        same("cells beside an apart fold", stacked, folded).map_err(|what| format!("{what}\n{keep:?}"))?;
    }
    Ok(())
}

/// Rows up to the longest, and stacks up to the highest that there are.
pub fn long(caller: &mut Caller) -> Compared<String> {
    for at in 0..LONG {
        let most_cells = MOST_CELLS as u32;
        let count = if at < SHAPES.len() { most_cells } else { caller.rng.within(301, most_cells) } as usize;
        let most = caller.rng.pick(&[1, 9, 4000]);
        let row = random(&mut caller.rng, count, SHAPES[at % SHAPES.len()], most);
        let shared = [2, 10, 1000].map(|stacks| total(&row).div_ceil(stacks));
        let keeps = limits(&mut caller.rng, &row, &shared);
        keeps.into_iter().try_for_each(|keep| filled(caller, &row, keep)).map_err(told(&row))?;
    }
    equal_cells(caller, 1)?;
    equal_cells(caller, 4000)?;
    Ok(format!("{LONG} rows of up to {MOST_CELLS} cells, filled from the back"))
}

/// The longest row of equal cells, at both kinds of limits.
fn equal_cells(caller: &mut Caller, height: u16) -> Compared<()> {
    let row = vec![height; MOST_CELLS];
    let limits = [1, 2, 3999, 4000, 59_999, 60_000, 60_001, LAST_ROW_LIMIT - 1, LAST_ROW_LIMIT];
    let mut keeps = limits.into_iter().flat_map(|limit| [Keep::Height(limit), Keep::Count(limit)]);
    keeps.try_for_each(|keep| filled(caller, &row, keep)).map_err(told(&row))
}

/// Any row, held to the rules and to filling: with a place for each cell, just enough, too few, none.
fn filled(caller: &mut Caller, row: &[u16], keep: Keep) -> Compared<()> {
    let answer = caller.cells(row, keep, row.len())?;
    same("the best stacks", answer.is_err() || are_best(row, keep, answer.unwrap()), true)
        .map_err(|what| format!("{what}\n{keep:?}, {answer:?}"))?;
    let count = answer.map_or(row.len(), |stacks| stacks.count as usize);
    alike(keep, caller.cells(row, keep, count + 1)?, answer)?;
    alike(keep, caller.cells(row, keep, count)?, answer)?;
    for room in [count.saturating_sub(1), 0] {
        let own = if room < count { answer.and(Err(8)) } else { answer };
        same("stacks, and too few places", caller.cells(row, keep, room)?, own)?;
    }
    Ok(())
}

/// Bad heights at a row's ends and inside, rows of bad sizes and bad limits, each with each: the order of refusals.
pub fn damaged(caller: &mut Caller) -> Compared<String> {
    let mut asked = 0;
    for count in [0, 1, 2, 7, MOST_CELLS, MOST_CELLS + 1] {
        let places = [0, count / 2, count.saturating_sub(1)];
        let heights = [None, Some(0), Some(4001), Some(65535)];
        let bad = heights.into_iter().flat_map(|height| places.map(|place| (height, place)));
        let rows = bad.map(|(height, place)| damaged_row(caller, count, height, place));
        asked += rows.sum::<Compared<usize>>()?;
    }
    Ok(format!("{asked} rows and limits, most of them damaged"))
}

/// A row of so many cells, with a height at one place, if any, that is none of its own.
fn damaged_row(caller: &mut Caller, count: usize, height: Option<u16>, place: usize) -> Compared<usize> {
    let most = caller.rng.pick(&[1, 9, 4000]);
    let mut row = random(&mut caller.rng, count, Shape::Any, most);
    if let (Some(height), Some(cell)) = (height, row.get_mut(place)) {
        *cell = height;
    }
    every_limit(caller, &row).map_err(told(&row))
}

fn every_limit(caller: &mut Caller, row: &[u16]) -> Compared<usize> {
    let limits = [0, 1, 2, 4000, LAST_ROW_LIMIT, LAST_ROW_LIMIT + 1, u32::MAX];
    let keeps = limits.into_iter().flat_map(|limit| [Keep::Height(limit), Keep::Count(limit)]);
    keeps.clone().try_for_each(|keep| filled(caller, row, keep))?;
    Ok(keeps.count())
}
