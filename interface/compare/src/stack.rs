//! Stacks, their files, and random ones of several shapes.

use crate::rng::Rng;
use crate::shapes;

#[derive(Clone, Copy, Debug, PartialEq, Eq)]
pub struct Component {
    pub height: u32,
    pub width: u32,
    pub gap: u32,
    /// 1 where a fold after it is barred.
    pub mark: u32,
}

/// A stack of these heights and widths, without gaps and marks.
pub fn plain(sizes: &[(u32, u32)]) -> Vec<Component> {
    sizes.iter().map(|&(height, width)| Component { height, width, gap: 0, mark: 0 }).collect()
}

/// The stack file of that version, whatever its numbers: each is cut to 16 bits. Version 1 leaves out the marks.
pub fn file(stack: &[Component], version: u16) -> Vec<u8> {
    let mut file = b"STK".to_vec();
    file.extend(version.to_le_bytes());
    file.extend((stack.len() as u16).to_le_bytes());
    let numbers = if version == 1 { 3 } else { 4 };
    for c in stack {
        for number in &[c.height, c.width, c.gap, c.mark][..numbers] {
            file.extend((*number as u16).to_le_bytes());
        }
    }
    file
}

/// The versions that can hold the stack.
pub fn versions(stack: &[Component]) -> &'static [u16] {
    match stack.iter().all(|c| c.mark == 0) {
        true => &[1, 2],
        false => &[2],
    }
}

/// The stack's file in one of its versions.
pub fn some_file(rng: &mut Rng, stack: &[Component]) -> Vec<u8> {
    file(stack, rng.pick(versions(stack)))
}

fn of_size([height, width, gap]: [u32; 3]) -> Component {
    Component { height, width, gap, mark: 0 }
}

/// How many of a stack's folds are barred.
#[derive(Clone, Copy, Debug)]
pub enum Marks {
    None,
    Few,
    Many,
    AllButTheLast,
}

/// Two stacks in five stay without marks: only those have files of version 1.
pub const MARKS: [Marks; 5] = [Marks::Few, Marks::None, Marks::Many, Marks::None, Marks::AllButTheLast];

/// Bars some of the stack's folds, or none.
pub fn mark_some(rng: &mut Rng, stack: &mut [Component]) {
    let marks = rng.pick(&MARKS);
    mark(rng, stack, marks);
}

pub fn mark(rng: &mut Rng, stack: &mut [Component], marks: Marks) {
    let last = stack.len() - 1;
    for c in &mut stack[..last] {
        let barred = match marks {
            Marks::None => false,
            Marks::Few => rng.one_in(6),
            Marks::Many => !rng.one_in(4),
            Marks::AllButTheLast => true,
        };
        c.mark = barred.into();
    }
}

pub fn total(stack: &[Component]) -> u32 {
    stack.iter().map(|c| c.height).sum()
}

/// Small numbers, so that ties and clashes are frequent.
#[derive(Clone, Copy, Debug)]
pub enum Shape {
    Tiny,
    Mixed,
    Gaps,
    EqualHeights,
    EqualWidths,
    /// Wide and narrow ones: two wide ones clash at most caps.
    Clashes,
    /// One component as high as all others together.
    Tall,
}

pub const SHAPES: [Shape; 7] =
    [Shape::Tiny, Shape::Mixed, Shape::Gaps, Shape::EqualHeights, Shape::EqualWidths, Shape::Clashes, Shape::Tall];

pub fn random(rng: &mut Rng, count: usize, shape: Shape) -> Vec<Component> {
    let (height, width) = (rng.within(1, 3), rng.within(1, 3));
    let mut stack: Vec<Component> = (0..count).map(|_| one(rng, shape, height, width)).collect();
    if matches!(shape, Shape::Tall) {
        stack[rng.below(count)].height = 2 * count as u32;
    }
    if rng.one_in(3) {
        stack.iter_mut().for_each(|c| c.gap += rng.below(2) as u32);
    }
    stack[count - 1].gap = 0;
    mark_some(rng, &mut stack);
    stack
}

fn one(rng: &mut Rng, shape: Shape, height: u32, width: u32) -> Component {
    let mut c = of_size([rng.within(1, 4), rng.within(1, 6), 0]);
    match shape {
        Shape::Tiny => c = of_size([rng.within(1, 2), rng.within(1, 3), 0]),
        Shape::Mixed | Shape::Tall => {}
        Shape::Gaps => c.gap = rng.within(0, 5),
        Shape::EqualHeights => c.height = height,
        Shape::EqualWidths => c.width = width,
        Shape::Clashes => c.width = rng.pick(&[1, 2, 8, 9]),
    }
    c
}

/// The same stack with rows and slices multiplied, for numbers up to 4,000.
pub fn scaled(stack: &[Component], rows: u32, slices: u32) -> Vec<Component> {
    let scale = |c: &Component| Component { height: c.height * rows, width: c.width * slices, gap: c.gap * rows, ..*c };
    stack.iter().map(scale).collect()
}

/// Numbers over the whole ranges.
pub fn large(rng: &mut Rng, count: usize, shape: shapes::Shape) -> Vec<Component> {
    let mut stack: Vec<Component> = shapes::sizes(rng, count, shape).into_iter().map(of_size).collect();
    mark_some(rng, &mut stack);
    stack
}

/// A nested stack with about a line for each two numbers up to `coarse` and `fine`: a wide and high component between two
/// runs that widen toward it. The table's narrowest layouts turn some of the coarse run over and cut off some of the fine
/// one; one more of the coarse run saves more rows, and takes more slices, than all of the fine one. Two coarse ones are
/// wider than the wide one, so the coarse run does not fold over itself for nothing. What is cut off stands last and needs
/// no right side.
pub fn nested_ladder(rng: &mut Rng, coarse: u32, fine: u32) -> Vec<Component> {
    let step = 3968 / coarse;
    let mut sizes: Vec<[u32; 3]> =
        (1..=coarse).map(|i| [step - rng.within(0, 2), 2000 + step / 2 * i - rng.within(0, 2), 0]).collect();
    sizes.push([4000, 4000, 0]);
    sizes.extend((1..=fine).rev().map(|i| [rng.within(1, 2), 2 * i - rng.within(0, 1), 0]));
    sizes.into_iter().map(of_size).collect()
}

/// An apart one, which cuts off both runs. A second fine run stands inside the first, parted from it by a component that is
/// about as wide and high as the whole coarse run: so its lines begin where those of the first end.
pub fn apart_ladder(rng: &mut Rng, coarse: u32, fine: u32, second: u32) -> Vec<Component> {
    let step = 3968 / coarse;
    let mut sizes: Vec<[u32; 3]> = (1..=coarse).map(|i| [step - rng.within(0, 1), step * i, 0]).collect();
    sizes.push([4000, 4000, 0]);
    sizes.extend((1..=second).rev().map(|i| [1, 3999 - fine + i, 0]));
    sizes.push([3968 - 2 * fine, 3999 - fine, 0]);
    sizes.extend((1..=fine).rev().map(|i| [1, i, 0]));
    sizes.into_iter().map(of_size).collect()
}
