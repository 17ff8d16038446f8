//! Large stacks of several shapes. The benchmark times the same ones, so what is timed is compared too.

use crate::rng::Rng;

#[derive(Clone, Copy, Debug, PartialEq)]
pub enum Shape {
    Random,
    EqualHeights,
    EqualWidths,
    /// Narrow and wide ones: a wide one fits beside a narrow one and clashes with every other.
    Clashes,
    Gaps,
    /// Widths rise to the middle of the stack and fall again, with a little noise: among the dearest stacks known.
    SmoothWidths,
}

pub const SHAPES: [(Shape, &str); 6] = [
    (Shape::Random, "random"),
    (Shape::EqualHeights, "equal heights"),
    (Shape::EqualWidths, "equal widths"),
    (Shape::Clashes, "many clashes"),
    (Shape::Gaps, "gaps"),
    (Shape::SmoothWidths, "smooth widths"),
];

/// Height, width and gap of each component.
pub fn sizes(rng: &mut Rng, count: usize, shape: Shape) -> Vec<[u32; 3]> {
    let last = count - 1;
    let depth = |i: usize| 2.0 * i.min(last - i) as f64 / last as f64;
    let mut sizes: Vec<[u32; 3]> = (0..count).map(|i| component(rng, shape, depth(i))).collect();
    sizes[last][2] = 0;
    sizes
}

/// The depth says how far from the nearer end of the stack it stands: 0 at an end, 1 in the middle.
fn component(rng: &mut Rng, shape: Shape, depth: f64) -> [u32; 3] {
    let height = match shape {
        Shape::EqualHeights => 1000,
        Shape::SmoothWidths => rng.within(2000, 4000),
        _ => rng.within(1, 4000),
    };
    let width = match shape {
        Shape::EqualWidths => 1000,
        Shape::Clashes => rng.within(1, 400) + if rng.one_in(2) { 3600 } else { 0 },
        Shape::SmoothWidths => 300 + (3600.0 * depth * depth) as u32 + rng.within(0, 100),
        _ => rng.within(1, 4000),
    };
    let gap = if shape == Shape::Gaps { rng.within(0, 1000) } else { 0 };
    [height, width, gap]
}
